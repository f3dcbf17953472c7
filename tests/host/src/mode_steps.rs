//! Mode steps: those that every run begins with, random ones, and what the steps by an engine have shown.

use crate::random::Random;
use crate::wire::{Call, Kind, Reply};
use bench_model::modes::{self, ties, Transition, FLAGS, TRANSITIONS};
use std::collections::BTreeSet;
use std::iter::once;
use std::ops::RangeInclusive;

const MODES: RangeInclusive<u32> = 1..=13;

/// A step by the engine in use.
fn step(mode: u32, flags: Vec<u8>) -> Call {
    Call::new(Kind::NextMode, &[mode]).with(flags)
}

/// Of a step by the engine in use, the same by the plain one; of any other call, nothing.
pub fn by_the_plain_engine(call: &Call) -> Option<Call> {
    (call.kind == Kind::NextMode).then(|| Call { kind: Kind::NextModePlain, ..call.clone() })
}

/// The transitions that leave a mode that may be none.
fn leaving(mode: u32) -> &'static [Transition] {
    TRANSITIONS.get((mode as usize).wrapping_sub(1)).map_or(&[], |list| list)
}

fn lists(transition: &Transition, condition: usize) -> bool {
    transition.conditions >> condition & 1 == 1
}

fn conditions(transition: &Transition) -> Vec<usize> {
    (1..=FLAGS).filter(|&n| lists(transition, n)).collect()
}

/// Every condition that opens a transition of a mode that may be none.
pub fn listed(mode: u32) -> Vec<usize> {
    leaving(mode).iter().flat_map(conditions).collect()
}

/// Opens every transition of a mode that has the priority of the one that is taken under these flags.
pub fn open_equals(random: &mut Random, mode: u32, flags: &mut [u8]) {
    let taken = modes::step(mode, flags).expect("a mode and flags").priority;
    for equal in leaving(mode).iter().filter(|t| t.priority == taken) {
        flags[random.pick(&conditions(equal)) - 1] = 1;
    }
}

/// The flags of which those of a set of conditions are 1.
pub fn flags_of(set: &[usize]) -> Vec<u8> {
    (1..=FLAGS).map(|n| u8::from(set.contains(&n))).collect()
}

/// The pairs of conditions that open two transitions of a mode.
fn pairs(mode: u32) -> impl Iterator<Item = [usize; 2]> {
    let all = (1..=FLAGS).flat_map(|one| (one + 1..=FLAGS).map(move |other| [one, other]));
    all.filter(move |pair| open_two(mode, pair))
}

fn open_two(mode: u32, pair: &[usize]) -> bool {
    leaving(mode).iter().filter(|t| pair.iter().any(|&n| lists(t, n))).count() == 2
}

/// The steps that every run begins with. `Calls::next` asks each of the plain engine too.
pub fn series() -> impl Iterator<Item = Call> {
    let of_no_mode = [0, 14, 257, u32::MAX].map(|mode| step(mode, vec![1; FLAGS]));
    MODES.flat_map(|mode| accepted(mode).chain(refused(mode))).chain(of_no_mode)
}

/// A mode with no flag, with each single one, with each two that open two transitions, and with all.
fn accepted(mode: u32) -> impl Iterator<Item = Call> {
    let single = (1..=FLAGS).map(|one| vec![one]);
    let sets = once(vec![]).chain(single).chain(pairs(mode).map(Vec::from)).chain(once((1..=FLAGS).collect()));
    sets.map(move |set| step(mode, flags_of(&set)))
}

/// Too few and too many flags, and a byte that is no flag at the first place, in the middle and at the last.
fn refused(mode: u32) -> impl Iterator<Item = Call> {
    let lengths = [0, FLAGS - 1, FLAGS + 1].map(|length| vec![1; length]);
    let wrong = [2, 255].into_iter().flat_map(|flag| {
        [0, FLAGS / 2, FLAGS - 1].map(|at| {
            let mut flags = vec![0; FLAGS];
            flags[at] = flag;
            flags
        })
    });
    lengths.into_iter().chain(wrong).map(move |flags| step(mode, flags))
}

/// A random step, at times from a mode that is none.
pub fn call(random: &mut Random) -> Call {
    let mode = if random.chance(95) { random.from(*MODES.start(), *MODES.end()) } else { random.number() };
    let flags = if random.chance(40) { flags_for(random, mode) } else { any_flags(random, mode) };
    step(mode, flags)
}

/// Flags for a mode step from a mode that may be none: they open transitions of the mode, mostly into modes that have a row class. At
/// times they are of another length, or hold a byte that is no flag.
pub fn flags_for(random: &mut Random, mode: u32) -> Vec<u8> {
    let mut flags = vec![0; FLAGS];
    let all = random.chance(20);
    let wanted: Vec<&Transition> = leaving(mode).iter().filter(|t| all || (2..=8).contains(&t.target)).collect();
    for _ in 0..random.below(4) {
        if wanted.is_empty() || random.chance(10) {
            flags[random.below(FLAGS as u32) as usize] = 1;
        } else {
            let listed = conditions(random.pick(&wanted));
            flags[random.pick(&listed) - 1] = 1;
        }
    }
    match random.below(25) {
        0 => flags.clear(),
        1 => flags.truncate(90),
        2 => flags.push(0),
        3 => flags[random.below(FLAGS as u32) as usize] = random.word() as u8,
        4 => flags = random.bytes(FLAGS).iter().map(|byte| byte & 1).collect(),
        _ => {}
    }
    flags
}

/// Any flags, from few to nearly all. Where many are set the best transitions of the mode are open nearly always, and no other is taken:
/// so mostly one that is drawn is open, and those that are better are not.
pub fn any_flags(random: &mut Random, mode: u32) -> Vec<u8> {
    let percent = random.pick(&[2, 5, 10, 25, 50, 75, 98]);
    let mut flags: Vec<u8> = (0..FLAGS).map(|_| u8::from(random.chance(percent))).collect();
    let leaving: Vec<&Transition> = leaving(mode).iter().collect();
    if !leaving.is_empty() && random.chance(80) {
        let drawn = random.pick(&leaving);
        let better = leaving.iter().filter(|t| t.priority < drawn.priority);
        better.flat_map(|t| conditions(t)).for_each(|n| flags[n - 1] = 0);
        flags[random.pick(&conditions(drawn)) - 1] = 1;
    }
    flags
}

/// What the steps by one engine have shown.
#[derive(Default, PartialEq, Eq)]
pub struct Steps {
    pub calls: u64,
    pub ties: u64,
    /// The modes, each with the one condition that was set.
    pub singles: BTreeSet<(u32, usize)>,
    /// The modes, each with the two conditions that were set and open two transitions.
    pub pairs: BTreeSet<(u32, [usize; 2])>,
    /// Steps under more conditions than two.
    pub larger: u64,
    /// Of these the modes before and after each.
    taken: BTreeSet<(u32, u32)>,
    /// And of those that were a tie the mode before and the priority.
    tied: BTreeSet<(u32, u32)>,
}

impl Steps {
    pub fn note(&mut self, call: &Call, reply: &Reply) {
        self.calls += 1;
        let (mode, [answer, after, priority, tie, ..]) = (call.n[0], reply.words);
        if answer != 0 {
            return;
        }
        self.ties += u64::from(tie);
        let set: Vec<usize> = (1..=FLAGS).filter(|n| call.given[n - 1] == 1).collect();
        match set[..] {
            [one] => _ = self.singles.insert((mode, one)),
            [one, other] if open_two(mode, &set) => _ = self.pairs.insert((mode, [one, other])),
            [_, _, _, ..] => {
                self.larger += 1;
                self.taken.insert((mode, after));
                if tie == 1 {
                    self.tied.insert((mode, priority));
                }
            }
            _ => {}
        }
    }

    /// What the steps by an engine are to show in a long run, and did not.
    pub fn missing(&self, engine: &str) -> Option<String> {
        let singles = MODES.flat_map(|mode| (1..=FLAGS).map(move |one| (mode, one)));
        let pairs = MODES.flat_map(|mode| pairs(mode).map(move |pair| (mode, pair)));
        let table = MODES.flat_map(|mode| leaving(mode).iter().map(move |t| (mode, t.target)));
        let single = first_not_in(&self.singles, singles).map(|(mode, one)| format!("{mode} with flag {one} alone"));
        let pair = first_not_in(&self.pairs, pairs).map(|(mode, pair)| format!("{mode} with flags {pair:?} alone"));
        let taken =
            first_not_in(&self.taken, table).map(|(mode, after)| format!("{mode} to {after} with more than two flags"));
        let tied = first_not_in(&self.tied, ties())
            .map(|(mode, priority)| format!("{mode} with more than two flags and a tie of priority {priority}"));
        single.or(pair).or(taken).or(tied).map(|step| format!("no step by {engine} was from mode {step}"))
    }
}

fn first_not_in<T: Ord>(met: &BTreeSet<T>, all: impl IntoIterator<Item = T>) -> Option<T> {
    all.into_iter().find(|one| !met.contains(one))
}
