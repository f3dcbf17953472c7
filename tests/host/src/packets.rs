//! Calls that need no session: packets that are sound, damaged, cut and random, mode steps, mode traces and frame ages.

use crate::random::Random;
use crate::wire::{Call, Kind};
use crate::{gates, mode_steps, moves, traces, turnouts};
use bench_model::packets::{COUNT, GATE_BYTES, LENGTH};
use bench_model::turnouts::{MOST_TURNOUTS, TURNOUT_BYTES};

/// How many of a hundred sub-packets that are framed or read are damaged.
const DAMAGED: u32 = 80;

pub fn call(random: &mut Random) -> Call {
    match random.below(24) {
        0 => {
            let sound = if random.chance(70) { gates::sound(random) } else { turnouts::sound(random) };
            Call::new(Kind::Frame, &[]).with(sound.altered(random, DAMAGED).0)
        }
        1..=4 => read(random, Kind::ReadGates, gates::sound, gates::MOST_GATES as usize * GATE_BYTES),
        5 => write(random, Kind::WriteGates, gates::list, gates::PACKET),
        6..=9 => read(random, Kind::ReadTurnouts, turnouts::sound, MOST_TURNOUTS * TURNOUT_BYTES),
        10 => write(random, Kind::WriteTurnouts, turnouts::list, turnouts::PACKET),
        11 => frame_age(random),
        12..=21 => moves::call(random),
        22 => mode_steps::call(random),
        _ => traces::call(random),
    }
}

fn read(random: &mut Random, kind: Kind, sound: fn(&mut Random) -> Sound, enough: usize) -> Call {
    let (given, damaged) = sound(random).altered(random, DAMAGED);
    Call { damaged, ..Call::new(kind, &[]).with(given).into_room(room(random, enough)) }
}

fn write(random: &mut Random, kind: Kind, list: fn(&mut Random) -> Vec<u8>, enough: usize) -> Call {
    let list = list(random);
    Call::new(kind, &[]).with(list).into_room(room(random, enough))
}

/// Mostly enough room, else less.
fn room(random: &mut Random, enough: usize) -> usize {
    if random.chance(85) {
        enough + random.below(9) as usize
    } else {
        random.below(enough as u32) as usize
    }
}

/// A value of a range, or one of its ends.
pub fn value(random: &mut Random, extreme: bool, least: u32, greatest: u32) -> u32 {
    if extreme {
        random.pick(&[least, greatest])
    } else {
        random.from(least, greatest)
    }
}

pub fn change_byte(random: &mut Random, bytes: &mut [u8]) {
    if !bytes.is_empty() {
        let offset = random.below(bytes.len() as u32) as usize;
        bytes[offset] = if random.chance(50) { random.word() as u8 } else { bytes[offset] ^ 1 << random.below(8) };
    }
}

/// A sub-packet that may be sent.
pub struct Sound {
    pub packet: Vec<u8>,
    /// Where each of its gates or turnouts starts; at last the bit behind them.
    pub starts: Vec<usize>,
    /// Makes a field wrong of the gate or turnout that starts at a bit.
    pub spoil: fn(&mut Random, &mut [u8], usize),
}

impl Sound {
    /// As it is or, in so many of a hundred cases, damaged; at times cut or with bytes behind it; or random bytes in its place. Whether it
    /// is a sound one that was changed.
    pub fn altered(self, random: &mut Random, percent: u32) -> (Vec<u8>, bool) {
        if random.chance(6) {
            let length = random.below(140) as usize;
            return (random.bytes(length), false);
        }
        let mut packet = self.packet.clone();
        if random.chance(percent) {
            self.damage(random, &mut packet);
        }
        let damaged = packet != self.packet;
        match random.below(16) {
            0 => packet.truncate(random.below(packet.len() as u32 + 1) as usize),
            1..=3 => {
                let length = random.below(20) as usize;
                packet.extend(random.bytes(length))
            }
            _ => {}
        }
        (packet, damaged)
    }

    /// How many gates or turnouts it has.
    pub fn count(&self) -> usize {
        self.starts.len() - 1
    }

    /// Changes some of its fields, or its padding, or both, and any byte; at times the header, which is judged before them. Often more
    /// than one thing is wrong, so that it counts which is told.
    fn damage(&self, random: &mut Random, packet: &mut [u8]) {
        let fields = if self.count() > 0 { random.pick(&[0, 0, 0, 1, 1, 2, 3, 6]) } else { 0 };
        for _ in 0..fields {
            let last = self.count() - 1;
            let one = if random.chance(30) { last } else { random.below(self.count() as u32) as usize };
            (self.spoil)(random, packet, self.starts[one]);
        }
        if fields == 0 || random.chance(20) {
            self.pad(random, packet);
        }
        if random.chance(12) {
            change_byte(random, packet);
        }
        if self.count() == 0 || random.chance(20) {
            self.damage_header(random, packet);
        }
    }

    /// Sets bits of the padding, if there is any.
    fn pad(&self, random: &mut Random, packet: &mut [u8]) {
        let first = self.starts[self.count()];
        let bits = 8 * packet.len() - first;
        if bits > 0 {
            let times = random.pick(&[1, 1, 1, 2, 5]);
            (0..times).for_each(|_| put(packet, first + random.below(bits as u32) as usize, 1, 1));
        }
    }

    fn damage_header(&self, random: &mut Random, packet: &mut [u8]) {
        let count_bits = self.starts[0] - COUNT;
        match random.below(8) {
            0 | 1 => put(packet, 0, 4, random.below(16)),
            2 | 3 => put(packet, LENGTH, 7, random.below(2)),
            4 => put(packet, LENGTH, 7, random.below(128)),
            5 | 6 => put(packet, COUNT, count_bits, random.below(1 << count_bits)),
            // the header for fewer, so that padding stands where a gate or a turnout does
            _ => {
                let fewer = random.below(self.starts.len() as u32);
                put(packet, LENGTH, 7, self.starts[fewer as usize].div_ceil(8) as u32);
                put(packet, COUNT, count_bits, fewer);
            }
        }
    }
}

/// Puts the low bits of a value into the field of `width` bits from bit `at` on, bit 0 being the top bit of the first byte.
pub fn put(bytes: &mut [u8], at: usize, width: usize, value: u32) {
    for bit in 0..width {
        let (byte, below) = (&mut bytes[(at + bit) / 8], 7 - (at + bit) % 8);
        let set = (value >> (width - 1 - bit) & 1) as u8;
        *byte = *byte & !(1 << below) | set << below;
    }
}

/// The frame that comes so many frames later.
fn later(frame: u32, by: u32) -> u32 {
    (frame - 1 + by) % 86_400 + 1
}

/// Any two numbers; any two frames; two frames with few between them, most of them round midnight.
fn frame_age(random: &mut Random) -> Call {
    let (any, at_midnight) = (random.from(1, 86_400), later(86_360, random.below(80)));
    let onboard = if random.chance(30) { any } else { at_midnight };
    let numbers = match random.below(6) {
        0 => [random.number(), random.number()],
        1 => [random.from(1, 86_400), onboard],
        2 => [onboard, later(onboard, random.below(40))],
        _ => [later(onboard, random.below(40)), onboard],
    };
    Call::new(Kind::FrameAge, &numbers)
}
