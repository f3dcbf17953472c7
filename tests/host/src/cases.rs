//! The cases of tests/session_cases.py, made through the header: the calls that a file holds, on one session, and a line for each.
//!
//! A case: kind (1 byte), session bytes lent and length of the rest (2 each), then numbers of 4 bytes and flags, high byte first. Kinds 0
//! to 9 are those of the wire. 10 asks for a named train's end, 11 for the train in a row, 12 for the counter, the entries kept and every
//! slot; 13 lets a loco request and release again and again. A line: the kind, and what was answered; a dash stands for what is missing.

use crate::wire::{Call, Kind, Reply, SESSION, WORDS};
use bench_model::session::{NONE, SLOTS};

const FLAGS: usize = 3;
const ROW: usize = 11;
const BOOK: usize = 12;

/// The call of each kind; that of the book is the first of several.
const KINDS: [Kind; 14] = [
    Kind::Start,
    Kind::Request,
    Kind::Release,
    Kind::Flags,
    Kind::Position,
    Kind::Authority,
    Kind::Danger,
    Kind::Sos,
    Kind::Clear,
    Kind::StepBack,
    Kind::End,
    Kind::Train,
    Kind::Counter,
    Kind::Turns,
];

pub struct Case {
    kind: usize,
    pub calls: Vec<Call>,
}

fn big(bytes: &[u8]) -> u32 {
    bytes.iter().fold(0, |number, &byte| number << 8 | u32::from(byte))
}

impl Case {
    fn first(bytes: &[u8]) -> (Case, &[u8]) {
        let (kind, lent) = (usize::from(bytes[0]), big(&bytes[1..3]));
        let (rest, next) = bytes[5..].split_at(big(&bytes[3..5]) as usize);
        let (numbers, flags) = rest.split_at(if kind == FLAGS { 8 } else { rest.len() });
        let numbers: Vec<u32> = numbers.chunks_exact(4).map(big).collect();
        let mut calls = vec![Call::new(KINDS[kind], &numbers).with(flags.to_vec())];
        if kind == BOOK {
            calls.push(Call::new(Kind::Kept, &[]));
            calls.extend((0..SLOTS + 2).map(|slot| Call::new(Kind::IsTaken, &[slot])));
        }
        calls.iter_mut().for_each(|call| call.lent = lent);
        (Case { kind, calls }, next)
    }

    /// Every case of a file.
    pub fn all(bytes: &[u8]) -> Vec<Case> {
        let mut cases = Vec::new();
        let mut rest = bytes;
        while !rest.is_empty() {
            let (case, next) = Case::first(rest);
            cases.push(case);
            rest = next;
        }
        cases
    }

    /// The line of a case, given the replies to its calls.
    pub fn line(&self, replies: &[Reply]) -> String {
        let words = replies[0].words;
        match self.kind {
            ROW => format!("{ROW} {} {}", self.calls[0].n[0], shown_train(&words)),
            BOOK => {
                let slots: String = replies[2..].iter().map(|r| if r.words[1] == 1 { 'x' } else { '.' }).collect();
                format!("{BOOK} {} {} {slots}", words[1], replies[1].words[1])
            }
            kind => format!("{kind} {} {} {} {}", words[0], words[1], words[2], words[3]),
        }
    }
}

/// What the session's bytes are before the first case: those of no call.
pub fn foreign() -> Call {
    Call::new(Kind::Fill, &[]).with(vec![0xAA; SESSION as usize])
}

fn shown(number: u32, none: &str) -> String {
    if number == NONE {
        none.into()
    } else {
        number.to_string()
    }
}

/// Loco, ticket, start, slots, mode, mode left; position, authority, danger location; the orders.
fn shown_train(words: &[u32; WORDS]) -> String {
    let numbers = words[1..7].iter().map(u32::to_string);
    let track = words[7..11].iter().map(|&location| shown(location, "-"));
    let orders = words[11..].chunks(2).map(|order| match order {
        [0, limit] => format!("- {}", shown(*limit, "-")),
        [other, limit] => format!("{other} {}", shown(*limit, "bare")),
        _ => unreachable!("an order is two words"),
    });
    numbers.chain(track).chain(orders).collect::<Vec<_>>().join(" ")
}
