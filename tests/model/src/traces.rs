//! A vendor's mode trace (document 02, T-12): entries one after another, each with a mode before, 91 flags and a mode after behind the mark.

use crate::answers::{OUT_OF_RANGE, WRONG_RECORD};
use crate::modes::{self, FLAGS};
use crate::recording::MARK;

/// The offsets of an entry's parts.
pub const BEFORE: usize = MARK.len();
pub const FIRST_FLAG: usize = BEFORE + 1;
pub const AFTER: usize = FIRST_FLAG + FLAGS;
/// The bytes of an entry.
pub const ENTRY: usize = AFTER + 1;

/// The mode after of the entry before the first one, of which there is none.
pub const NO_MODE: u32 = 0;

// What is wrong with an entry.
pub const RIGHT: u32 = 0;
pub const MODE_BEFORE: u32 = 1;
pub const MODE_AFTER: u32 = 2;

#[derive(Clone, Copy, PartialEq, Eq, Debug, Default)]
pub struct TraceAnswer {
    pub answer: u32,
    /// The first entry that is wrong or refused, counted from 1; 0 where there is none.
    pub entry: usize,
    /// The mode due in a wrong entry.
    pub due: u32,
}

#[derive(Clone, Copy, PartialEq, Eq, Debug, Default)]
pub struct EntryAnswer {
    pub answer: u32,
    pub wrong: u32,
    /// The mode due in a wrong entry.
    pub due: u32,
}

/// Judges the whole trace, up to the first entry that is wrong or refused.
pub fn check_trace(trace: &[u8]) -> TraceAnswer {
    let mut previous = NO_MODE;
    for (entry, bytes) in (1..).zip(trace.chunks(ENTRY)) {
        let EntryAnswer { answer, wrong, due } = check_entry(previous, bytes);
        if answer != 0 || wrong != RIGHT {
            return TraceAnswer { answer, entry, due };
        }
        previous = u32::from(bytes[AFTER]);
    }
    TraceAnswer::default()
}

/// Judges the first entry of `bytes`, given the mode after of the entry before it; what follows it is ignored.
pub fn check_entry(previous: u32, bytes: &[u8]) -> EntryAnswer {
    if bytes.len() < ENTRY || bytes[..BEFORE] != MARK {
        return EntryAnswer { answer: WRONG_RECORD, ..EntryAnswer::default() };
    }
    let (before, flags, after) = (u32::from(bytes[BEFORE]), &bytes[FIRST_FLAG..AFTER], u32::from(bytes[AFTER]));
    let is_mode = |mode| (1..=13).contains(&mode);
    let is_first = previous == NO_MODE;
    if !is_first && !is_mode(previous) || !is_mode(before) || !is_mode(after) || flags.iter().any(|&flag| flag > 1) {
        return EntryAnswer { answer: OUT_OF_RANGE, ..EntryAnswer::default() };
    }
    if !is_first && before != previous {
        return EntryAnswer { answer: 0, wrong: MODE_BEFORE, due: previous };
    }
    let due = modes::step(before, flags).expect("mode and flags are in range").mode;
    if after != due {
        return EntryAnswer { answer: 0, wrong: MODE_AFTER, due };
    }
    EntryAnswer::default()
}
