//! Reads a list of calls and prints what the archive libhost.a answers over lent memory, in the meter's text.

mod calls;
#[path = "../command.rs"]
mod command;
#[rustfmt::skip] // it has the format of its own crate
#[path = "../../../bindings/rust/src/ffi.rs"]
mod ffi;
mod lent;
#[path = "../lines.rs"]
mod lines;
mod shown;

use std::env;
use std::io::{self, BufReader, BufWriter, Write};
use std::process::ExitCode;

use calls::{numbers_of, ACTIONS};
use command::{Call, Command};
use ffi::{Memory, ANSWER, CALL};

const BUFFER: usize = 1 << 16;
/// A longer line is no command, as for the program `meter`.
const LONGEST_LINE: usize = 65_536;

struct Library {
    memory: Memory,
    /// Whether calls go to `meter_calls`, as many as follow one another, or each by itself to `meter_call`.
    in_lists: bool,
    /// The numbers of the calls that are not yet carried out, one after the other.
    waiting: Vec<u64>,
}

fn main() -> ExitCode {
    let arguments: Vec<_> = env::args_os().skip(1).collect();
    let in_lists = arguments == ["--lists"];
    if !in_lists && !arguments.is_empty() {
        eprintln!("usage: library [--lists]; calls are read from standard input");
        return ExitCode::from(2);
    }
    let mut output = BufWriter::with_capacity(BUFFER, io::stdout().lock());
    match answer_all(in_lists, &mut output).and_then(|()| output.flush()) {
        Ok(()) => ExitCode::SUCCESS,
        Err(error) => {
            eprintln!("library: {error}");
            ExitCode::FAILURE
        }
    }
}

fn answer_all(in_lists: bool, output: &mut impl Write) -> io::Result<()> {
    let mut library = Library {
        memory: Memory::fresh(0, 0),
        in_lists,
        waiting: Vec::new(),
    };
    let input = BufReader::with_capacity(BUFFER, io::stdin().lock());
    lines::each(input, |number, line| library.answer(number, line, output))?;
    library.carry_out(output)
}

impl Library {
    fn answer(&mut self, number: u64, line: &[u8], output: &mut impl Write) -> io::Result<()> {
        let command = Command::read(line).filter(|_| line.len() <= LONGEST_LINE);
        if let Some(Command::Call(call)) = command {
            return self.take(&call, output);
        }
        self.carry_out(output)?;
        match command.and_then(|command| self.reply(&command, output)) {
            Some(written) => written,
            None => writeln!(output, "error {number}"),
        }
    }

    /// A list ends with `actions` at the latest: calls after it may overwrite the entries that it shows.
    fn take(&mut self, call: &Call, output: &mut impl Write) -> io::Result<()> {
        self.waiting.extend(numbers_of(call));
        if self.in_lists && !matches!(call, Call::Actions(_)) {
            return Ok(());
        }
        self.carry_out(output)
    }

    /// Lends the memory for the calls that wait, and prints their answers.
    fn carry_out(&mut self, output: &mut impl Write) -> io::Result<()> {
        if self.waiting.is_empty() {
            return Ok(());
        }
        let mut answers = vec![0; self.waiting.len() / CALL * ANSWER];
        let returned = if self.in_lists {
            self.memory.calls(&self.waiting, &mut answers)
        } else {
            self.memory.call(&self.waiting, &mut answers)
        };
        if returned != 0 {
            let message = format!("the archive returned {returned} for {:?}", self.waiting);
            return Err(io::Error::other(message));
        }
        let calls = self.waiting.chunks_exact(CALL);
        for (call, answer) in calls.zip(answers.chunks_exact(ANSWER)) {
            self.memory
                .show_answer(answer, call[0] == ACTIONS, output)?;
        }
        self.waiting.clear();
        Ok(())
    }

    /// Nothing where the memory has no place for what is to be set, or more is to be lent than the program has.
    fn reply(&mut self, command: &Command, output: &mut impl Write) -> Option<io::Result<()>> {
        Some(match command {
            Command::Table { rows, entries } => {
                self.memory = lent::fresh(*rows, *entries)?;
                writeln!(output, "table")
            }
            Command::Row(key) => self.memory.show_row(*key as usize, output),
            Command::Live => self.memory.show_live(output),
            Command::Dump => self.memory.show_all(output),
            Command::Damage(damage) => {
                self.memory.damage(damage)?;
                writeln!(output, "ok")
            }
            Command::Call(_) => unreachable!("calls are taken before"),
        })
    }
}
