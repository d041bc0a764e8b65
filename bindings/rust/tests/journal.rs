//! Recording, flushing, appending and replaying, and what each refuses.

use meter::{Answer, Call, Entry, Journal, Key, Meter, Refusal, Stopped, Token, Value};

fn key(index: u32) -> Key {
    Key::from_index(index)
}

/// What a replay must give again: each key's root, the root's rank and the group's value.
fn groups(meter: &mut Meter) -> Vec<(Key, u32, Value)> {
    (0..meter.len() as u32)
        .map(|k| {
            let (root, value) = meter.probe_key_value(key(k)).unwrap();
            (root, meter.row(root).unwrap().rank, value)
        })
        .collect()
}

/// Numbers that look random, always the same.
struct Random(u64);

impl Random {
    fn below(&mut self, limit: u32) -> u32 {
        self.0 = self
            .0
            .wrapping_mul(6_364_136_223_846_793_005)
            .wrapping_add(1_442_695_040_888_963_407);
        (self.0 >> 33) as u32 % limit
    }
}

/// Calls of every kind on 40 keys, recorded in lists of some; the answers, all of them.
fn a_day(meter: &mut Meter, journal: &mut Journal, calls: usize, seed: u64) -> Vec<(Call, Answer)> {
    let mut random = Random(seed);
    let mut tokens = vec![Token::default()];
    let mut said = Vec::new();
    while said.len() < calls {
        let list: Vec<Call> = (0..1 + random.below(4))
            .map(|_| {
                let (a, b) = (key(random.below(40)), key(random.below(40)));
                let value = Value::new(random.below(3), u64::from(random.below(1_000)));
                let token = tokens[tokens.len() - 1];
                match random.below(12) {
                    0 | 1 => Call::New(value),
                    2 | 3 => Call::Join(a, b),
                    4..=6 => Call::Post(a, value),
                    7 => Call::Snapshot,
                    8 => Call::Rollback(token),
                    9 => Call::Commit(token),
                    10 => Call::Find(a),
                    _ => Call::Probe(b),
                }
            })
            .collect();
        let answers = meter.record(journal, &list).unwrap();
        for (call, answer) in list.into_iter().zip(answers) {
            match call {
                _ if answer.refusal.is_some() => {}
                Call::Snapshot => tokens.push(answer.token),
                Call::Rollback(_) | Call::Commit(_) => drop(tokens.pop()),
                _ => {}
            }
            said.push((call, answer));
        }
    }
    said
}

fn is_written((call, answer): &(Call, Answer)) -> bool {
    let question = matches!(call, Call::Find(_) | Call::Probe(_));
    answer.refusal.is_none() && !question
}

#[test]
fn a_day_is_replayed() {
    for seed in 1..20 {
        let mut meter = Meter::new(40, 20_000).unwrap();
        let mut journal = Journal::empty();
        let said = a_day(&mut meter, &mut journal, 9_000, seed);
        let written = said.iter().filter(|pair| is_written(pair)).count();
        assert_eq!(journal.len(), written);
        assert_eq!(
            (journal.segments(), journal.waiting()),
            (written / 2_048, written % 2_048)
        );
        assert_eq!(journal.num_open_snapshots(), meter.num_open_snapshots());

        let mut night = Meter::new(40, (32 * written).min(Meter::LOG_LIMIT)).unwrap();
        assert_eq!(journal.replay(&mut night), Ok(written));
        assert_eq!(journal.waiting(), 0);
        assert_eq!(night.num_open_snapshots(), meter.num_open_snapshots());
        assert_eq!(groups(&mut night), groups(&mut meter));

        let again = Journal::from_bytes(journal.clone().into_bytes()).unwrap();
        assert_eq!((again.len(), again.segments()), (written, journal.segments()));
        assert_eq!(again.num_open_snapshots(), meter.num_open_snapshots());
    }
}

/// A journal can be put away and gone on with, also while snapshots are open.
#[test]
fn a_journal_is_gone_on_with() {
    let mut meter = Meter::new(40, 20_000).unwrap();
    let mut journal = Journal::empty();
    a_day(&mut meter, &mut journal, 3_000, 5);
    let mut journal = Journal::from_bytes(journal.into_bytes()).unwrap();
    a_day(&mut meter, &mut journal, 3_000, 6);
    let mut night = Meter::new(40, Meter::LOG_LIMIT).unwrap();
    let entries = journal.len();
    assert_eq!(journal.replay(&mut night), Ok(entries));
    assert_eq!(groups(&mut night), groups(&mut meter));
}

/// Answers are those of the same calls that are not recorded.
#[test]
fn recording_changes_no_answer() {
    let (mut recorded, mut plain) = (Meter::new(40, 3_000).unwrap(), Meter::new(40, 3_000).unwrap());
    for (call, answer) in a_day(&mut recorded, &mut Journal::empty(), 6_000, 3) {
        assert_eq!(plain.call(call), answer, "{call:?}");
    }
    assert_eq!(format!("{plain:?}"), format!("{recorded:?}"));
}

#[test]
fn the_bytes_of_entries() {
    let mut journal = Journal::empty();
    let entries = [
        Entry::New(Value::new(7, 300)),
        Entry::Post(key(1), Value::new(0x0102_0304, u64::MAX)),
        Entry::Join(key(2), key(65_536)),
        Entry::Snapshot,
        Entry::Rollback,
    ];
    journal.append(&entries).unwrap();
    #[rustfmt::skip]
    let wanted = [
        1, 0, 0, 0, 0, 0, 0, 0, 0, 0, 0, 0, 7, 0, 0, 0, 44, 1, 0, 0, 0, 0, 0, 0,
        2, 0, 0, 0, 1, 0, 0, 0, 0, 0, 0, 0, 4, 3, 2, 1, 255, 255, 255, 255, 255, 255, 255, 255,
        3, 0, 0, 0, 2, 0, 0, 0, 0, 0, 1, 0, 0, 0, 0, 0, 0, 0, 0, 0, 0, 0, 0, 0,
        4, 0, 0, 0, 0, 0, 0, 0, 0, 0, 0, 0, 0, 0, 0, 0, 0, 0, 0, 0, 0, 0, 0, 0,
        5, 0, 0, 0, 0, 0, 0, 0, 0, 0, 0, 0, 0, 0, 0, 0, 0, 0, 0, 0, 0, 0, 0, 0,
        120, 0, 0, 0, 5, 0, 0, 0, 0, 0, 0, 0,
    ];
    assert_eq!(journal.bytes(), wanted);
}

#[test]
fn appends() {
    let mut journal = Journal::empty();
    let two = [Entry::New(Value::new(7, 1)), Entry::Snapshot];
    assert_eq!(journal.append(&[]), Err(Refusal::BadJournal));
    assert_eq!(journal.append(&[Entry::Commit]), Err(Refusal::BadJournal));
    journal.append(&two).unwrap();
    assert_eq!(
        (journal.len(), journal.segments(), journal.num_open_snapshots()),
        (2, 1, 1)
    );
    let before = journal.bytes().to_vec();
    assert_eq!(journal.append(&[Entry::Snapshot; 32]), Err(Refusal::BadJournal)); // 33 would be open
    assert_eq!(
        journal.append(&[Entry::New(Value::default()); 2_049]),
        Err(Refusal::BadJournal)
    );
    assert_eq!(journal.append_bytes(&[0; 24]), Err(Refusal::BadJournal));
    assert_eq!(journal.append_bytes(&[4; 25]), Err(Refusal::BadJournal));
    assert_eq!(journal.bytes(), before);
    journal.append(&[Entry::Snapshot; 31]).unwrap();
    journal.append(&[Entry::Commit, Entry::Rollback]).unwrap();
    assert_eq!(
        (journal.len(), journal.segments(), journal.num_open_snapshots()),
        (35, 3, 30)
    );
    assert_eq!(journal.bytes()[..before.len()], before); // append-only
}

/// Entries that wait are not lost by an append, and go before what is appended.
#[test]
fn an_append_behind_entries_that_wait() {
    let mut meter = Meter::new(2, 0).unwrap();
    let mut journal = Journal::empty();
    meter.record(&mut journal, &[Call::New(Value::new(7, 1))]).unwrap();
    assert_eq!((journal.waiting(), journal.bytes().len()), (1, 0));
    journal.append(&[Entry::Post(key(0), Value::new(7, 2))]).unwrap();
    assert_eq!((journal.len(), journal.segments()), (2, 2));
    let mut night = Meter::new(2, 0).unwrap();
    assert_eq!(journal.replay(&mut night), Ok(2));
    assert_eq!(night.probe_value(key(0)), Ok(Value::new(7, 3)));
}

#[test]
fn a_limit() {
    let mut meter = Meter::new(4, 0).unwrap();
    let mut journal = Journal::with_limit(24 + 24 + 12 + 11);
    let new = Call::New(Value::new(7, 1));
    let refusals: Vec<_> = meter
        .record(&mut journal, &[new; 3])
        .unwrap()
        .into_iter()
        .map(|a| a.refusal)
        .collect();
    assert_eq!(refusals, [None, None, Some(Refusal::NoRoom)]);
    assert_eq!((meter.len(), journal.len()), (2, 2)); // the third was not carried out
    assert_eq!(journal.append(&[Entry::New(Value::default())]), Err(Refusal::NoRoom));
    assert_eq!((journal.len(), journal.bytes().len()), (2, 60));
    assert_eq!(journal.into_bytes().len(), 60);
}

/// A call is recorded only where the journal has as many open snapshots as the meter.
#[test]
fn a_journal_of_another_meter() {
    let mut meter = Meter::new(4, 4).unwrap();
    let mut journal = Journal::empty();
    let token = meter.snapshot().unwrap(); // not recorded
    let new = Call::New(Value::new(7, 1));
    let answers = meter
        .record(&mut journal, &[new, Call::Rollback(token), Call::Len])
        .unwrap();
    assert_eq!(answers[0].refusal, Some(Refusal::BadJournal));
    assert_eq!(answers[1].refusal, Some(Refusal::BadJournal));
    assert_eq!(answers[2].refusal, None); // it isn't written
    assert_eq!((meter.len(), meter.num_open_snapshots(), journal.len()), (0, 1, 0));
    meter.rollback_to(token).unwrap();
    assert_eq!(meter.record(&mut journal, &[new]).unwrap()[0].refusal, None);
}

#[test]
fn bytes_that_are_no_journal() {
    let mut journal = Journal::empty();
    journal
        .append(&[Entry::New(Value::new(7, 1)), Entry::Snapshot])
        .unwrap();
    journal.append(&[Entry::Commit]).unwrap();
    let bytes = journal.into_bytes();
    let mut meter = Meter::new(4, 4).unwrap();
    let before = format!("{meter:?}");
    let stopped = Stopped {
        refusal: Refusal::BadJournal,
        entry: 0,
    };
    for short in (1..bytes.len()).filter(|&short| short != 60) {
        assert_eq!(meter.replay(&bytes[..short]), Err(stopped));
        assert_eq!(
            Journal::from_bytes(bytes[..short].to_vec()).unwrap_err().into_bytes(),
            bytes[..short]
        );
    }
    assert_eq!(format!("{meter:?}"), before);
    assert_eq!(stopped.to_string(), "BAD_JOURNAL (12)");
    assert_eq!(
        Journal::from_bytes(vec![0; 5]).unwrap_err().to_string(),
        "BAD_JOURNAL (12): 5 bytes"
    );
    assert_eq!(meter.replay(&bytes), Ok(3));
}

#[test]
fn a_replay_names_where_it_stops() {
    let mut journal = Journal::empty();
    journal
        .append(&[Entry::New(Value::new(7, 1)), Entry::New(Value::new(8, 1))])
        .unwrap();
    journal
        .append(&[Entry::Join(key(0), key(1)), Entry::New(Value::default())])
        .unwrap();
    let mut meter = Meter::new(4, 4).unwrap();
    let stopped = journal.replay(&mut meter).unwrap_err();
    assert_eq!((stopped.refusal, stopped.entry), (Refusal::OwnerClash, 2));
    assert_eq!(stopped.to_string(), "entry 2: OWNER_CLASH (4)");
    assert_eq!(meter.len(), 2); // what came before it is there
}

/// 16 MiB in segments of one entry, on a thread with little stack.
#[test]
fn as_many_segments_as_there_can_be() {
    const SEGMENTS: usize = (16 << 20) / 36;
    let mut bytes = Vec::with_capacity(36 * SEGMENTS);
    for number in 0..SEGMENTS as u32 {
        let entry = match number {
            0 => Entry::New(Value::new(7, 0)),
            _ => Entry::Post(key(0), Value::new(7, 1)),
        };
        bytes.extend(entry.bytes());
        for word in [24, 1, number] {
            bytes.extend(word.to_le_bytes());
        }
    }
    let mut journal = Journal::from_bytes(bytes).unwrap();
    assert_eq!((journal.len(), journal.segments()), (SEGMENTS, SEGMENTS));
    let mut meter = Meter::new(1, 0).unwrap();
    assert_eq!(journal.replay(&mut meter), Ok(SEGMENTS));
    assert_eq!(meter.probe_value(key(0)), Ok(Value::new(7, SEGMENTS as u64 - 1)));
}
