//! A day's journal in a file, for bindings/test, which has one language write it and another replay it.
//!
//!     journal write FILE     carries out a day's calls, writes their journal, prints the groups
//!     journal replay FILE    replays it into a fresh meter, prints the groups

use std::error::Error;
use std::{env, fs};

use meter::{Call, Journal, Key, Meter, Token, Value};

const ROWS: usize = 60;

fn print(meter: &mut Meter) -> Result<(), Box<dyn Error>> {
    println!("{} keys, {} open", meter.len(), meter.num_open_snapshots());
    for k in 0..meter.len() as u32 {
        let (root, value) = meter.probe_key_value(Key::from_index(k))?;
        let rank = meter.row(root).ok_or("a root is live")?.rank;
        println!(
            "{k} {} {rank} {} {}",
            root.index(),
            value.owner.map_or(0, |owner| owner.get()),
            value.amount
        );
    }
    Ok(())
}

fn write(file: &str) -> Result<(), Box<dyn Error>> {
    let mut meter = Meter::new(ROWS, 10_000)?;
    let mut journal = Journal::empty();
    let (mut random, mut tokens) = (3_u64, vec![Token::default()]);
    for _ in 0..9_000 {
        random = random
            .wrapping_mul(6_364_136_223_846_793_005)
            .wrapping_add(1_442_695_040_888_963_407);
        let (r, kind) = ((random >> 33) as u32, random >> 60);
        let (a, b) = (Key::from_index(r % ROWS as u32), Key::from_index(r / 64 % ROWS as u32));
        let value = Value::new(r % 5 / 2, u64::from(r) << 20);
        let token = tokens[tokens.len() - 1];
        let call = match kind {
            0..=3 => Call::New(value),
            4..=6 => Call::Join(a, b),
            7..=11 => Call::Post(a, value),
            12 => Call::Find(b),
            13 => Call::Snapshot,
            14 => Call::Rollback(token),
            _ => Call::Commit(token),
        };
        let answers = meter.record(&mut journal, &[call])?;
        match call {
            _ if answers[0].refusal.is_some() => {}
            Call::Snapshot => tokens.push(answers[0].token),
            Call::Rollback(_) | Call::Commit(_) => drop(tokens.pop()),
            _ => {}
        }
    }
    fs::write(file, journal.into_bytes())?;
    print(&mut meter)
}

fn replay(file: &str) -> Result<(), Box<dyn Error>> {
    let mut journal = Journal::from_bytes(fs::read(file)?)?;
    let mut meter = Meter::new(ROWS, (32 * journal.len()).min(Meter::LOG_LIMIT))?;
    journal.replay(&mut meter)?;
    print(&mut meter)
}

fn main() -> Result<(), Box<dyn Error>> {
    let words: Vec<String> = env::args().skip(1).collect();
    match words.iter().map(String::as_str).collect::<Vec<_>>()[..] {
        ["write", file] => write(file),
        ["replay", file] => replay(file),
        _ => Err("usage: journal write|replay FILE".into()),
    }
}
