//! The mode step (document 000, A1.4), from document 01's thirteen lines.

use crate::answers::OUT_OF_RANGE;
use std::collections::BTreeSet;
use std::sync::LazyLock;

pub const FLAGS: usize = 91;

const NUMBERS: &str = "1 SB, 2 SR, 3 LS, 4 FS, 5 OV, 6 OS, 7 TR, 8 PT, 9 RV, 10 SH, 11 NL, 12 SF, 13 IS";

/// The mode of a new train.
pub const SB: u32 = 1;
/// Override, in which the danger location does not count.
pub const OV: u32 = 5;

const LINES: &str = "\
- SB: SR:77,60/4 LS:61/3 FS:62/4 OV:63/4 OS:64/4 PT:66/4 RV:67/4 SH:68,57/4 NL:53/3 SF:5/2 IS:2/1
- SR: SB:7/4 OS:87/6 RV:45/5 SH:56/5 NL:53/3 SF:5/2 IS:2/1
- LS: SB:7/4 SR:17,23,30,39,40,44,85/5 OS:90/5 RV:58/7 SH:56/7 NL:53/3 SF:5/2 IS:2/1
- FS: SB:7/5 SR:17,23,30,39,40,44,85/6 LS:76/7 OV:71/7 OS:90/9 TR:69/4 RV:58/8 SH:56/8 NL:53/3 SF:5/2 IS:2/1
- OV: SB:7/4 SR:17,23,30,34,39,40,44,85/5 FS:74/7 OS:91/6 NL:53/3 SF:5/2 IS:2/1
- OS: SB:7/5 SR:17,23,30,34,39,40,44,85,89/6 FS:81/8 OV:71/7 TR:69/4 RV:58/7 SH:56/7 NL:53/3 SF:5/2 IS:2/1
- TR: PT:59/3 SF:5/2 IS:2/1
- PT: SB:7/3 SR:17,30/4 OV:86/5 RV:58/5 SF:5/2 IS:2/1
- RV: SB:7,35/4 NL:53/3 SF:5/2 IS:2/1
- SH: SB:7,56/4 NL:53/3 SF:5/2 IS:2/1
- NL: SB:82/3 SF:51/2 IS:2/1
- SF: SB:79/3 NL:54/2 IS:2/1
- IS: SB:80/3 NL:55/2 SF:52/1
";

/// The number of a mode by its name, as "4 FS" in the paper's list gives it.
pub fn number(name: &str) -> u32 {
    let mut modes = NUMBERS.split(", ").map(|mode| mode.split_once(' ').expect("number and name"));
    let (number, _) = modes.find(|(_, listed)| *listed == name).expect("a mode of the list");
    number.parse().expect("a number")
}

pub struct Transition {
    pub target: u32,
    pub priority: u32,
    /// Bit n stands for condition n; the transition is open when any of them is set.
    pub conditions: u128,
}

/// The transitions that leave each mode; mode n is at n - 1.
pub static TRANSITIONS: LazyLock<Vec<Vec<Transition>>> = LazyLock::new(|| {
    let lines = LINES.lines().map(|line| line[2..].split_once(": ").expect("mode: transitions"));
    let table: Vec<_> = lines
        .enumerate()
        .map(|(before, (mode, list))| {
            assert_eq!(number(mode) as usize, before + 1, "the lines stand in the order of the modes");
            list.split(' ').map(transition).collect()
        })
        .collect();
    table
});

/// One transition as the paper writes it: target:conditions/priority.
fn transition(text: &str) -> Transition {
    let (target, rest) = text.split_once(':').expect("target:");
    let (conditions, priority) = rest.split_once('/').expect("conditions/priority");
    let bits = conditions.split(',').map(|n| 1u128 << n.parse::<u32>().expect("a condition"));
    Transition {
        target: number(target),
        priority: priority.parse().expect("a priority"),
        conditions: bits.fold(0, |all, bit| all | bit),
    }
}

/// Every mode with a priority that two or more of its transitions share. It is for programs that say which ties they have met.
pub fn ties() -> BTreeSet<(u32, u32)> {
    let mut ties = BTreeSet::new();
    for (mode, leaving) in (1..).zip(TRANSITIONS.iter()) {
        let mut met = BTreeSet::new();
        ties.extend(leaving.iter().filter(|t| !met.insert(t.priority)).map(|t| (mode, t.priority)));
    }
    ties
}

#[derive(Clone, Copy, PartialEq, Eq, Debug)]
pub struct Step {
    pub mode: u32,
    /// 0 when the mode stays.
    pub priority: u32,
    pub tie: u32,
}

/// The mode after `mode` under the 91 flags, or the refusal.
pub fn step(mode: u32, flags: &[u8]) -> Result<Step, u32> {
    if !(1..=13).contains(&mode) || flags.len() != FLAGS || flags.iter().any(|&flag| flag > 1) {
        return Err(OUT_OF_RANGE);
    }
    // Condition n is byte n counted from 1.
    let set = flags.iter().rev().fold(0u128, |set, &flag| (set | u128::from(flag)) << 1);
    let mut best = Step { mode, priority: 0, tie: 0 };
    for open in TRANSITIONS[mode as usize - 1].iter().filter(|t| t.conditions & set != 0) {
        if best.priority == 0 || open.priority < best.priority {
            best = Step { mode: open.target, priority: open.priority, tie: 0 };
        } else if open.priority == best.priority {
            best = Step { mode: best.mode.min(open.target), priority: best.priority, tie: 1 };
        }
    }
    Ok(best)
}
