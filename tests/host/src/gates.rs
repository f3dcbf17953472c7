//! Gate sub-packets, in either form, and lists of gates: sound, damaged, cut and random.

use crate::packets::{change_byte, put, value, Sound};
use crate::random::Random;
use bench_model::packets::{GATE_BITS, GATE_BYTES, HEADER_BITS};

pub const MOST_GATES: u32 = 28;
/// The bytes of the longest gate sub-packet.
pub const PACKET: usize = 125;
/// The same in the old form.
pub const OLD_MOST_GATES: u32 = 31;
pub const OLD_PACKET: usize = 115;

/// The bits of a distance. The old form has no other difference.
pub const DISTANCE: usize = 15;
pub const OLD_DISTANCE: usize = 9;

/// The first bits, behind a gate's distance, of the fields that have a value that is not allowed, and their widths. All ones are wrong in
/// each.
pub const JUDGED: [(usize, usize); 4] = [NUMBER, (10, 3), (14, 3), (18, 2)];
/// Zero is wrong here, too.
const NUMBER: (usize, usize) = (0, 10);

/// The distances that a list has: up to `most` times `unit`.
#[derive(Clone, Copy)]
pub struct Distances {
    pub most: u32,
    pub unit: u32,
}

const ANY: Distances = Distances { most: 32_767, unit: 1 };

/// The bytes of one gate that may be sent; in every tenth each value is the least or the greatest.
fn gate(random: &mut Random, distances: Distances) -> [u8; GATE_BYTES] {
    let extreme = random.chance(10);
    let mut value = |least, greatest| value(random, extreme, least, greatest);
    let [a, b] = ((value(0, distances.most) * distances.unit) as u16).to_be_bytes();
    let [c, d] = (value(1, 1_022) as u16).to_be_bytes();
    let mut small = |greatest| value(0, greatest) as u8;
    [a, b, c, d, small(6), small(1), small(6), small(1), small(2)]
}

pub fn gates(random: &mut Random, count: u32, distances: Distances) -> Vec<u8> {
    (0..count).flat_map(|_| gate(random, distances)).collect()
}

/// Few gates, any number, or so many that late gates are met often.
pub fn gate_count(random: &mut Random) -> u32 {
    match random.below(20) {
        0..=6 => random.below(4),
        7..=15 => random.below(MOST_GATES + 1),
        _ => random.from(MOST_GATES - 3, MOST_GATES),
    }
}

/// Gates outside a sub-packet: sound, of a wrong length, too many, or with a byte changed.
pub fn list(random: &mut Random) -> Vec<u8> {
    let count = gate_count(random);
    let mut list = gates(random, count, ANY);
    match random.below(10) {
        0 => list.truncate(random.below(list.len() as u32 + 1) as usize),
        1 => {
            let count = MOST_GATES + random.below(4);
            list = gates(random, count, ANY);
        }
        2 | 3 => change_byte(random, &mut list),
        4 => {
            let length = random.below(40) as usize;
            list = random.bytes(length);
        }
        _ => {}
    }
    list
}

pub fn sound(random: &mut Random) -> Sound {
    let count = gate_count(random);
    packed::<DISTANCE>(&gates(random, count, ANY))
}

/// The first bit of a gate, counted from 0, where a distance has so many bits.
pub fn start(distance: usize, gate: usize) -> usize {
    HEADER_BITS + (distance + GATE_BITS - DISTANCE) * gate
}

/// A sub-packet of the gates of a list, in the form whose distances have `BITS` bits.
pub fn packed<const BITS: usize>(list: &[u8]) -> Sound {
    let count = list.len() / GATE_BYTES;
    let starts: Vec<usize> = (0..=count).map(|gate| start(BITS, gate)).collect();
    let length = starts[count].div_ceil(8);
    let mut packet = vec![0; length];
    put(&mut packet, 0, HEADER_BITS, (3 << 12 | length << 5 | count) as u32);
    for (gate, &start) in list.chunks_exact(GATE_BYTES).zip(&starts) {
        let [a, b, c, d, small @ ..] = gate else { unreachable!("a gate has nine bytes") };
        put(&mut packet, start, BITS, u32::from_be_bytes([0, 0, *a, *b]));
        put(&mut packet, start + BITS, 10, u32::from_be_bytes([0, 0, *c, *d]));
        for (&value, (at, width)) in small.iter().zip([(10, 3), (13, 1), (14, 3), (17, 1), (18, 2)]) {
            put(&mut packet, start + BITS + at, width, u32::from(value));
        }
    }
    Sound { packet, starts, spoil: spoil::<BITS> }
}

/// Makes a field wrong of the gate that starts at a bit.
fn spoil<const BITS: usize>(random: &mut Random, packet: &mut [u8], gate: usize) {
    let (at, width) = random.pick(&JUDGED);
    let zero = (at, width) == NUMBER && random.chance(50);
    put(packet, gate + BITS + at, width, if zero { 0 } else { u32::MAX });
}
