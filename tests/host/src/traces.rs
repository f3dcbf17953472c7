//! Mode traces: a series without chance, a long one, random ones with one change each, and what was said of them.

use crate::mode_steps;
use crate::packets::change_byte;
use crate::random::Random;
use crate::wire::{Call, Kind, Reply};
use bench_model::answers::{OUT_OF_RANGE, WRONG_RECORD};
use bench_model::modes::{number, step, FLAGS};
use bench_model::recording::MARK;
use bench_model::traces::{
    check_entry, EntryAnswer, AFTER, BEFORE, ENTRY, FIRST_FLAG, MODE_AFTER, MODE_BEFORE, NO_MODE,
};
use std::iter::once;

/// The most entries of a random trace.
const MOST_ENTRIES: u32 = 12;
/// The entries of the long one: their numbers need more than 16 bits.
pub const LONG: usize = 70_000;
/// The ends of what a mode, a flag and a byte may be, and what lies next to them.
const EDGES: [u8; 6] = [0, 1, 2, 13, 14, 255];

fn check(trace: Vec<u8>) -> Call {
    Call::new(Kind::CheckTrace, &[]).with(trace)
}

fn check_one(previous: u32, bytes: &[u8]) -> Call {
    Call::new(Kind::CheckTraceEntry, &[previous]).with(bytes.to_vec())
}

/// Checks a trace as a whole; then as a host does that holds the bytes of one entry, up to the first that is not right.
fn both_ways(trace: Vec<u8>) -> Vec<Call> {
    let mut previous = Some(NO_MODE);
    let by_entry = trace.chunks(ENTRY).map_while(|held| {
        let call = check_one(previous?, held);
        let is_right = check_entry(previous?, held) == EntryAnswer::default();
        previous = is_right.then(|| u32::from(held[AFTER]));
        Some(call)
    });
    let by_entry: Vec<Call> = by_entry.collect();
    once(check(trace)).chain(by_entry).collect()
}

fn entry(before: u32, flags: &[u8], after: u32) -> Vec<u8> {
    [&MARK[..], &[before as u8], flags, &[after as u8]].concat()
}

/// A right trace by the model's steps: from a mode, under the flags for each mode that it comes to.
fn walk(mut mode: u32, entries: usize, mut flags: impl FnMut(u32) -> Vec<u8>) -> Vec<u8> {
    let mut trace = Vec::with_capacity(entries * ENTRY);
    for _ in 0..entries {
        let flags = flags(mode);
        let after = step(mode, &flags).expect("a mode and flags").mode;
        trace.extend(entry(mode, &flags, after));
        mode = after;
    }
    trace
}

/// A right trace from any mode. In a quarter of its entries no transition is open, and in another there is a tie where there can be one.
fn right(random: &mut Random, entries: usize) -> Vec<u8> {
    walk(random.from(1, 13), entries, |mode| {
        let mut flags = mode_steps::any_flags(random, mode);
        match random.below(4) {
            0 => mode_steps::listed(mode).into_iter().for_each(|n| flags[n - 1] = 0),
            1 => mode_steps::open_equals(random, mode, &mut flags),
            _ => {}
        }
        flags
    })
}

/// A right trace: from FS by a tie to LS, to OS, which stays, and to TR.
fn four_entries() -> Vec<u8> {
    let mut sets = [&[71, 76][..], &[90], &[], &[69]].into_iter();
    walk(number("FS"), sets.len(), |_| mode_steps::flags_of(sets.next().expect("a set for each entry")))
}

fn with_byte(trace: &[u8], at: usize, byte: u8) -> Vec<u8> {
    let mut trace = trace.to_vec();
    trace[at] = byte;
    trace
}

/// The calls on traces without chance.
pub fn series() -> impl Iterator<Item = Call> {
    let traces = lengths().chain(two_modes()).chain(edges()).chain(two_faults());
    traces.flat_map(both_ways).chain(alone())
}

/// No entry, some, and some that are cut or have a byte behind them.
fn lengths() -> impl Iterator<Item = Vec<u8>> {
    (0..=four_entries().len())
        .map(|length| four_entries()[..length].to_vec())
        .chain(once([&four_entries()[..], &MARK[..1]].concat()))
}

/// Each mode before and each after it under no flag; and the same as the modes of two entries that stay.
fn two_modes() -> impl Iterator<Item = Vec<u8>> {
    let pairs = (1..=13).flat_map(|one| (1..=13).map(move |other| (one, other)));
    let stays = |mode| entry(mode, &[0; FLAGS], mode);
    pairs.flat_map(move |(one, other)| [entry(one, &[0; FLAGS], other), [stays(one), stays(other)].concat()])
}

/// Each byte at an edge.
fn edges() -> impl Iterator<Item = Vec<u8>> {
    (0..four_entries().len()).flat_map(|at| EDGES.map(|byte| with_byte(&four_entries(), at, byte)))
}

/// Any two of a wrong mark, a flag that is none and wrong modes, in one entry or in two; and one of them in a trace that is cut, too.
fn two_faults() -> impl Iterator<Item = Vec<u8>> {
    let faults = [(0, 0), (1, 0), (FIRST_FLAG, 2), (AFTER - 1, 2), (BEFORE, 13), (AFTER, 13), (BEFORE, 0), (AFTER, 14)];
    let faults = move || (0..4).flat_map(move |n| faults.map(|(at, byte)| (n * ENTRY + at, byte)));
    faults().flat_map(move |(at, byte)| {
        let one = with_byte(&four_entries(), at, byte);
        let cut = one[..one.len() - 1].to_vec();
        faults().map(move |(at, byte)| with_byte(&one, at, byte)).chain(once(cut))
    })
}

/// An entry, cut, whole and with bytes behind it, and with a fault, behind each mode, behind none and behind numbers that are no mode.
fn alone() -> impl Iterator<Item = Call> {
    let previous = (0..=14).chain([255, 256, 260, 65_540, u32::MAX]);
    let faults = [(0, 0), (FIRST_FLAG, 2), (BEFORE, 0), (AFTER, 14), (AFTER, 5)];
    previous.flat_map(move |previous| {
        let cut = [0, 1, 2, ENTRY - 1, ENTRY, ENTRY + 1, 2 * ENTRY].map(|length| four_entries()[..length].to_vec());
        let wrong = faults.map(|(at, byte)| with_byte(&four_entries()[..ENTRY], at, byte));
        cut.into_iter().chain(wrong).map(move |bytes| check_one(previous, &bytes))
    })
}

/// The calls on a long trace, whose last entry alone is wrong.
pub fn long(random: &mut Random) -> Vec<Call> {
    let mut trace = right(random, LONG);
    other_mode(random, trace.last_mut().expect("an entry"));
    both_ways(trace)
}

/// The calls on a random trace with one change; now and then with none.
pub fn one_change(random: &mut Random) -> Vec<Call> {
    let mut trace = random_trace(random);
    if random.chance(95) {
        change(random, &mut trace);
    }
    both_ways(trace)
}

fn random_trace(random: &mut Random) -> Vec<u8> {
    let entries = random.from(0, MOST_ENTRIES) as usize;
    right(random, entries)
}

/// A random call on a trace or on an entry of one with what follows it. Often more than one thing is wrong, so that it counts which is told.
pub fn call(random: &mut Random) -> Call {
    let mut trace = random_trace(random);
    let changes = random.pick(&[0, 1, 1, 2, 3]);
    (0..changes).for_each(|_| change(random, &mut trace));
    if random.chance(50) {
        return check(trace);
    }
    let entries = trace.len().div_ceil(ENTRY).max(1);
    let at = random.below(entries as u32) as usize * ENTRY;
    let previous = match random.below(8) {
        0 => random.number(),
        1 => random.below(15),
        _ if at == 0 => NO_MODE,
        _ => u32::from(trace[at - 1]),
    };
    check_one(previous, &trace[at..])
}

/// Changes one thing. A trace without a whole entry can only become longer.
fn change(random: &mut Random, trace: &mut Vec<u8>) {
    let entries = (trace.len() / ENTRY) as u32;
    if entries == 0 {
        return trace.insert(random.below(trace.len() as u32 + 1) as usize, MARK[0]);
    }
    let any = random.below(trace.len() as u32) as usize;
    let [one, other] = [random.below(entries), random.below(entries)].map(|n| n as usize * ENTRY);
    match random.below(12) {
        0 => change_byte(random, trace),
        1 => trace[any] = random.pick(&EDGES),
        2 => other_mode(random, &mut trace[one + BEFORE]),
        3 => other_mode(random, &mut trace[one + AFTER]),
        4 => change_flag(random, &mut trace[one..one + ENTRY]),
        5 => change_byte(random, &mut trace[one..one + BEFORE]),
        6 => trace.truncate(any),
        7 => trace.insert(any, random.pick(&EDGES)),
        8 => drop(trace.remove(any)),
        9 => drop(trace.drain(one..one + ENTRY)),
        10 => drop(trace.splice(one..one, trace[one..one + ENTRY].to_vec())),
        _ => (0..ENTRY).for_each(|n| trace.swap(one + n, other + n)),
    }
}

/// Changes a mode to any other.
fn other_mode(random: &mut Random, mode: &mut u8) {
    *mode = ((u32::from(*mode) + random.below(12)) % 13 + 1) as u8;
}

/// Changes a flag of an entry, in half of the cases one that counts in its mode before.
fn change_flag(random: &mut Random, entry: &mut [u8]) {
    let listed = mode_steps::listed(u32::from(entry[BEFORE]));
    let any = listed.is_empty() || random.chance(50);
    let n = if any { random.from(1, FLAGS as u32) as usize } else { random.pick(&listed) };
    entry[FIRST_FLAG + n - 1] ^= 1;
}

/// What was said of traces, or of entries by themselves, and how often.
#[derive(Default)]
pub struct Verdicts([u64; 5]);

const NAMES: [&str; 5] =
    ["right", "wrong in the mode before", "wrong in the mode after", "refused with 24", "refused with 17"];

impl Verdicts {
    pub fn note(&mut self, call: &Call, reply: &Reply) {
        let verdict = match reply.words[0] {
            WRONG_RECORD => 3,
            OUT_OF_RANGE => 4,
            _ => wrong(call, reply) as usize,
        };
        self.0[verdict] += 1;
    }

    pub fn count(&self) -> u64 {
        self.0.iter().sum()
    }

    pub fn listed(&self) -> String {
        let listed = self.0.iter().zip(NAMES).map(|(times, name)| format!("{times} {name}"));
        listed.collect::<Vec<_>>().join(", ")
    }

    /// A verdict that was not given.
    pub fn missing(&self, what: &str) -> Option<String> {
        let missing = self.0.iter().position(|&times| times == 0);
        missing.map(|verdict| format!("no {what} was {}", NAMES[verdict]))
    }
}

/// What is wrong where nothing is refused: an entry's reply says it, and of a trace's the entry that is told shows it.
fn wrong(call: &Call, reply: &Reply) -> u32 {
    let told = reply.words[1];
    if call.kind == Kind::CheckTraceEntry || told == 0 {
        return told;
    }
    let at = (told as usize - 1) * ENTRY;
    if at > 0 && call.given[at + BEFORE] != call.given[at - 1] {
        MODE_BEFORE
    } else {
        MODE_AFTER
    }
}
