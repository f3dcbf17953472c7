//! Moves of gate sub-packets between the two forms.

use crate::gates::{gate_count, gates, packed, start, Distances, DISTANCE, MOST_GATES, OLD_DISTANCE, OLD_MOST_GATES};
use crate::packets::Sound;
use crate::random::Random;
use crate::wire::{Call, Kind};
use bench_model::packets::GATE_BYTES;

/// How many sub-packets of a hundred are damaged.
const DAMAGED: u32 = 45;
/// And how many are in the form that is not read.
const IN_THE_OTHER_FORM: u32 = 4;

pub fn call(random: &mut Random) -> Call {
    let forward = random.chance(50);
    let old = forward != random.chance(IN_THE_OTHER_FORM);
    let sound = if old { old_gates(random) } else { new_gates(random) };
    let (kind, distance) = if forward { (Kind::GatesForward, DISTANCE) } else { (Kind::GatesBack, OLD_DISTANCE) };
    let room = room(random, start(distance, sound.count()).div_ceil(8));
    let (given, damaged) = sound.altered(random, DAMAGED);
    Call { damaged, ..Call::new(kind, &[]).with(given).into_room(room) }
}

/// At times more gates than can go forward.
fn old_gates(random: &mut Random) -> Sound {
    let count = if random.chance(10) { random.from(MOST_GATES + 1, OLD_MOST_GATES) } else { gate_count(random) };
    packed::<OLD_DISTANCE>(&gates(random, count, Distances { most: 511, unit: 1 }))
}

/// In half of the sub-packets some distances cannot go back, often only the last gate's.
fn new_gates(random: &mut Random) -> Sound {
    let count = gate_count(random);
    let mut list = gates(random, count, Distances { most: 511, unit: 10 });
    let odd = if count > 0 && random.chance(50) { random.pick(&[1, 1, 1, 2, 6]) } else { 0 };
    for _ in 0..odd {
        let gate = if random.chance(30) { count - 1 } else { random.below(count) } as usize;
        let distance = odd_distance(random) as u16;
        list[gate * GATE_BYTES..][..2].copy_from_slice(&distance.to_be_bytes());
    }
    packed::<DISTANCE>(&list)
}

/// A distance that cannot go back: near 5,110; in tens, but too far; near enough, but not in tens; or any that is too far.
fn odd_distance(random: &mut Random) -> u32 {
    match random.below(4) {
        0 => random.pick(&[1, 9, 5_109, 5_111, 5_115, 5_119, 5_120, 5_130, 10_240, 32_760, 32_767]),
        1 => 10 * random.from(512, 3_276),
        2 => 10 * random.below(512) + random.from(1, 9),
        _ => random.from(5_111, 32_767),
    }
}

/// Room for a sub-packet that takes so many bytes: just so many, one less, more, or any.
fn room(random: &mut Random, due: usize) -> usize {
    match random.below(10) {
        0..=2 => due,
        3 => due - 1,
        4..=8 => due + random.from(1, 30) as usize,
        _ => random.below(130) as usize,
    }
}
