//! What a call answers.

use std::fmt;

use crate::fields::EntryFields;
use crate::log::Entry;

/// The nine numbers; a field that a call does not name is 0.
#[derive(Default)]
pub struct Answer {
    pub no: u64,
    pub key: u32,
    pub token: u64,
    pub owner: u32,
    pub amount: u64,
    pub steps: u64,
    pub yes: bool,
    pub from: usize,
    pub to: usize,
}

pub enum Reply<'a> {
    Numbers(Answer),
    View(Answer, &'a [Entry]),
    TokenNotOpen,
    CratePanicked,
}

impl fmt::Display for Answer {
    fn fmt(&self, text: &mut fmt::Formatter<'_>) -> fmt::Result {
        let Answer {
            no,
            key,
            token,
            owner,
            amount,
            steps,
            yes,
            from,
            to,
        } = self;
        let yes = u8::from(*yes);
        write!(
            text,
            "{no} {key} {token} {owner} {amount} {steps} {yes} {from} {to}"
        )
    }
}

impl fmt::Display for Reply<'_> {
    fn fmt(&self, text: &mut fmt::Formatter<'_>) -> fmt::Result {
        match self {
            Reply::Numbers(answer) => write!(text, "{answer}"),
            Reply::View(answer, entries) => {
                write!(text, "{answer}")?;
                entries
                    .iter()
                    .try_for_each(|entry| write!(text, " | {}", EntryFields(entry)))
            }
            Reply::TokenNotOpen => write!(text, "none"),
            Reply::CratePanicked => write!(text, "panic"),
        }
    }
}
