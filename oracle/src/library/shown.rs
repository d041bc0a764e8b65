//! Answers and the lent memory, printed in the text of CALLS.md.

use std::fmt::Display;
use std::io::{self, Write};

use crate::ffi::{Memory, CROWN, ENTRY};
use crate::lent::{mark_numbers, mark_serial, COUNT, LAST, MARKS, OPEN, USED};

/// Places in an answer.
const FROM: usize = 7;
const TO: usize = 8;

/// A number of the lent memory after a blank, or `-` where it has no place.
fn put(number: Option<impl Display>, output: &mut impl Write) -> io::Result<()> {
    match number {
        Some(number) => write!(output, " {number}"),
        None => write!(output, " -"),
    }
}

impl Memory {
    /// The answer's numbers, and for `actions` the entries that it names. There are none in a refusal's range.
    pub fn show_answer(
        &self,
        answer: &[u64],
        with_entries: bool,
        output: &mut impl Write,
    ) -> io::Result<()> {
        write!(output, "{}", answer[0])?;
        for number in &answer[1..] {
            write!(output, " {number}")?;
        }
        if with_entries {
            self.put_entries(answer[FROM] as usize, answer[TO] as usize, output)?;
        }
        writeln!(output)
    }

    pub fn show_row(&self, key: usize, output: &mut impl Write) -> io::Result<()> {
        if key >= self.rows() {
            return writeln!(output, "none");
        }
        write!(output, "row")?;
        self.put_row(key, output)?;
        writeln!(output)
    }

    pub fn show_live(&self, output: &mut impl Write) -> io::Result<()> {
        let [count, used, open] = [COUNT, USED, OPEN].map(|at| self.numbers[at] as usize);
        let (rows, entries) = (count.min(self.rows()), used.min(self.entries()));
        self.show("live", rows, entries, open.min(MARKS), output)
    }

    pub fn show_all(&self, output: &mut impl Write) -> io::Result<()> {
        self.show("dump", self.rows(), self.entries(), MARKS, output)
    }

    fn show(
        &self,
        name: &str,
        rows: usize,
        entries: usize,
        marks: usize,
        output: &mut impl Write,
    ) -> io::Result<()> {
        write!(output, "{name} rows")?;
        for key in 0..rows {
            write!(output, " |")?;
            self.put_row(key, output)?;
        }
        write!(output, " log")?;
        self.put_entries(0, entries, output)?;
        let [count, used, open] = [COUNT, USED, OPEN].map(|at| self.numbers[at]);
        let last = self.serials[LAST];
        write!(output, " state {count} {used} {open} {last} marks")?;
        for mark in 0..marks {
            let (serial, at) = (self.serials[mark_serial(mark)], mark_numbers(mark));
            let (log_len, keys) = (self.numbers[at], self.numbers[at + 1]);
            write!(output, " | {serial} {log_len} {keys}")?;
        }
        writeln!(output)
    }

    fn put_row(&self, key: usize, output: &mut impl Write) -> io::Result<()> {
        put(self.parents.get(key), output)?;
        put(self.crowns.get(CROWN * key), output)?;
        put(self.crowns.get(CROWN * key + 1), output)?;
        put(self.amounts.get(key), output)
    }

    fn put_entries(&self, from: usize, to: usize, output: &mut impl Write) -> io::Result<()> {
        (from..to).try_for_each(|entry| {
            write!(output, " |")?;
            self.put_entry(entry, output)
        })
    }

    fn put_entry(&self, entry: usize, output: &mut impl Write) -> io::Result<()> {
        let number = |place| self.log.get(ENTRY * entry + place).copied();
        for place in 0..5 {
            put(number(place), output)?;
        }
        let amount = |(low, high)| u64::from(low) | u64::from(high) << 32;
        put(number(5).zip(number(6)).map(amount), output)
    }
}
