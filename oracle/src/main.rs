//! Reads a list of calls and prints what the crate ena answers, line by line.

mod answer;
#[allow(dead_code)] // what is lent is read over here; the program `library` reads it
mod command;
mod fields;
mod guard;
mod key;
mod lines;
mod log;
mod rows;
mod shared;
mod table;
mod value;

use std::io::{self, BufRead, BufReader, BufWriter, Write};
use std::process::ExitCode;

use answer::Reply;
use command::Command;
use table::Table;

const BUFFER: usize = 1 << 16;

/// No table after a panic of the crate: what it left is not looked at.
struct Oracle(Option<Table>);

fn main() -> ExitCode {
    if std::env::args_os().len() > 1 {
        eprintln!("oracle: takes no arguments; calls are read from standard input");
        return ExitCode::from(2);
    }
    guard::silence_the_crate();
    let input = BufReader::with_capacity(BUFFER, io::stdin().lock());
    let mut output = BufWriter::with_capacity(BUFFER, io::stdout().lock());
    match answer_all(input, &mut output).and_then(|()| output.flush()) {
        Ok(()) => ExitCode::SUCCESS,
        Err(error) => {
            eprintln!("oracle: {error}");
            ExitCode::FAILURE
        }
    }
}

fn answer_all(input: impl BufRead, output: &mut impl Write) -> io::Result<()> {
    let mut oracle = Oracle(Some(Table::fresh()));
    lines::each(input, |number, line| match Command::read(line) {
        Some(command) => oracle.answer(&command, output),
        None => writeln!(output, "error {number}"),
    })
}

impl Oracle {
    fn answer(&mut self, command: &Command, output: &mut impl Write) -> io::Result<()> {
        match (command, &mut self.0) {
            (Command::Table { .. }, _) => {
                self.0 = Some(Table::fresh());
                writeln!(output, "table")
            }
            (Command::Dump | Command::Damage(_), _) => writeln!(output, "unknown"),
            (_, None) => writeln!(output, "dead"),
            (Command::Live, Some(table)) => {
                writeln!(output, "{}", table.live().map_err(io::Error::other)?)
            }
            (Command::Row(key), Some(table)) => match table.row(*key) {
                Some(row) => writeln!(output, "row {row}"),
                None => writeln!(output, "none"),
            },
            (Command::Call(call), Some(table)) => {
                let reply = table.call(call);
                writeln!(output, "{reply}")?;
                if matches!(reply, Reply::CratePanicked) {
                    self.0 = None;
                }
                Ok(())
            }
        }
    }
}
