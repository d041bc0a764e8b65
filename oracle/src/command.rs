//! One line of input, read as a command.

pub enum Command {
    Table { rows: u32, entries: u32 },
    Row(u32),
    Live,
    Dump,
    Damage(Damage),
    Call(Call),
}

/// Writes to lent memory, which the crate does not have.
pub enum Damage {
    SetRow {
        key: u32,
        row: Row,
    },
    SetEntry {
        entry: u32,
        kind: u32,
        key: u32,
        row: Row,
    },
    SetState {
        count: u32,
        used: u32,
        open: u32,
        last: u64,
    },
    SetMark {
        mark: u32,
        serial: u64,
        log_len: u32,
        keys: u32,
    },
    Lend {
        parents: u32,
        crowns: u32,
        amounts: u32,
        log: u32,
    },
}

pub struct Row {
    pub parent: u32,
    pub rank: u32,
    pub owner: u32,
    pub amount: u64,
}

pub enum Call {
    New { owner: u32, amount: u64 },
    Len,
    Find(u32),
    Unioned(u32, u32),
    Join(u32, u32),
    Post { key: u32, owner: u32, amount: u64 },
    Probe(u32),
    ProbeKey(u32),
    TryProbe(u32),
    Snapshot,
    Rollback(u64),
    Commit(u64),
    Keys(u64),
    Actions(u64),
    Changes(u64),
}

/// The words after a command's name, taken one by one.
struct Words<'a>(std::vec::IntoIter<&'a [u8]>);

impl Words<'_> {
    /// As a u32 below 2^32 (a key, an owner, a length), as a u64 below 2^64 (an amount, a token).
    fn number<N: TryFrom<u64>>(&mut self) -> Option<N> {
        N::try_from(decimal(self.0.next()?)?).ok()
    }

    fn row(&mut self) -> Option<Row> {
        Some(Row {
            parent: self.number()?,
            rank: self.number()?,
            owner: self.number()?,
            amount: self.number()?,
        })
    }
}

/// Digits and nothing else. Zeros in front are allowed, a sign is not.
fn decimal(word: &[u8]) -> Option<u64> {
    word.iter().try_fold(0u64, |number, byte| {
        if !byte.is_ascii_digit() {
            return None;
        }
        number.checked_mul(10)?.checked_add(u64::from(byte - b'0'))
    })
}

impl Command {
    /// None where the line is no command.
    pub fn read(line: &[u8]) -> Option<Command> {
        let words: Vec<&[u8]> = line
            .split(|&byte| byte == b' ')
            .filter(|word| !word.is_empty())
            .collect();
        let mut words = Words(words.into_iter());
        let name = words.0.next()?;
        let command = match Call::read(name, &mut words) {
            Some(call) => Command::Call(call),
            None => Command::read_other(name, &mut words)?,
        };
        words.0.next().is_none().then_some(command)
    }

    fn read_other(name: &[u8], words: &mut Words) -> Option<Command> {
        Some(match name {
            b"table" => Command::Table {
                rows: words.number()?,
                entries: words.number()?,
            },
            b"row" => Command::Row(words.number()?),
            b"live" => Command::Live,
            b"dump" => Command::Dump,
            _ => Command::Damage(Damage::read(name, words)?),
        })
    }
}

impl Damage {
    fn read(name: &[u8], words: &mut Words) -> Option<Damage> {
        Some(match name {
            b"set_row" => Damage::SetRow {
                key: words.number()?,
                row: words.row()?,
            },
            b"set_entry" => Damage::SetEntry {
                entry: words.number()?,
                kind: words.number()?,
                key: words.number()?,
                row: words.row()?,
            },
            b"set_state" => Damage::SetState {
                count: words.number()?,
                used: words.number()?,
                open: words.number()?,
                last: words.number()?,
            },
            b"set_mark" => Damage::SetMark {
                mark: words.number().filter(|&mark| mark < 32)?,
                serial: words.number()?,
                log_len: words.number()?,
                keys: words.number()?,
            },
            b"lend" => Damage::Lend {
                parents: words.number()?,
                crowns: words.number()?,
                amounts: words.number()?,
                log: words.number()?,
            },
            _ => return None,
        })
    }
}

impl Call {
    fn read(name: &[u8], words: &mut Words) -> Option<Call> {
        Some(match name {
            b"new" => Call::New {
                owner: words.number()?,
                amount: words.number()?,
            },
            b"len" => Call::Len,
            b"find" => Call::Find(words.number()?),
            b"unioned" => Call::Unioned(words.number()?, words.number()?),
            b"join" => Call::Join(words.number()?, words.number()?),
            b"post" => Call::Post {
                key: words.number()?,
                owner: words.number()?,
                amount: words.number()?,
            },
            b"probe" => Call::Probe(words.number()?),
            b"probe_key" => Call::ProbeKey(words.number()?),
            b"try_probe" => Call::TryProbe(words.number()?),
            b"snapshot" => Call::Snapshot,
            b"rollback" => Call::Rollback(words.number()?),
            b"commit" => Call::Commit(words.number()?),
            b"keys" => Call::Keys(words.number()?),
            b"actions" => Call::Actions(words.number()?),
            b"changes" => Call::Changes(words.number()?),
            _ => return None,
        })
    }
}
