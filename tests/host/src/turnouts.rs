//! Turnout sub-packets and lists of turnouts: sound, damaged, cut and random.

use crate::packets::{change_byte, put, value, Sound};
use crate::random::Random;
use bench_model::turnouts::{
    write_turnouts, HEADER_BITS, MOST_TURNOUTS, RESTRICTED, SPEED_BITS, TURNOUT_BITS, TURNOUT_BYTES, UNRESTRICTED,
};

/// The bytes of the longest turnout sub-packet.
pub const PACKET: usize = 14;

const MOST: u32 = MOST_TURNOUTS as u32;

/// The bytes of one turnout that may be sent; of those with distances, in every tenth each value is the least or the greatest.
fn turnout(random: &mut Random) -> [u8; TURNOUT_BYTES] {
    if random.chance(50) {
        return [UNRESTRICTED as u8, 0, 0, 0, 0];
    }
    let extreme = random.chance(10);
    let mut value = |least, greatest| value(random, extreme, least, greatest);
    let speed = value(*RESTRICTED.start(), *RESTRICTED.end()) as u8;
    let [a, b] = (value(0, 32_767) as u16).to_be_bytes();
    let [c, d] = (value(0, 4_095) as u16).to_be_bytes();
    [speed, a, b, c, d]
}

fn turnouts(random: &mut Random, count: u32) -> Vec<u8> {
    (0..count).flat_map(|_| turnout(random)).collect()
}

/// Turnouts outside a sub-packet: sound, of a wrong length, too many, with a byte changed, or with a field just past what may be sent.
pub fn list(random: &mut Random) -> Vec<u8> {
    let count = random.below(MOST + 1);
    let mut list = turnouts(random, count);
    match random.below(10) {
        0 => list.truncate(random.below(list.len() as u32 + 1) as usize),
        1 => {
            let count = MOST + random.below(3);
            list = turnouts(random, count);
        }
        2 | 3 => change_byte(random, &mut list),
        4 | 5 if count > 0 => {
            let (at, width, value) =
                random.pick(&[(0, 8, 0), (0, 8, 19), (0, 8, 30), (0, 8, 32), (8, 16, 32_768), (24, 16, 4_096)]);
            let turnout = random.below(count) as usize;
            put(&mut list, 8 * TURNOUT_BYTES * turnout + at, width, value);
        }
        6 => {
            let length = random.below(25) as usize;
            list = random.bytes(length);
        }
        _ => {}
    }
    list
}

pub fn sound(random: &mut Random) -> Sound {
    let count = random.below(MOST + 1);
    let list = turnouts(random, count);
    let mut packet = vec![0; PACKET];
    let written = write_turnouts(&list, &mut packet);
    packet.truncate(written.bytes);
    let mut starts = vec![HEADER_BITS];
    for turnout in list.chunks_exact(TURNOUT_BYTES) {
        let restricted = RESTRICTED.contains(&u32::from(turnout[0]));
        starts.push(starts[starts.len() - 1] + if restricted { TURNOUT_BITS } else { SPEED_BITS });
    }
    Sound { packet, starts, spoil }
}

/// Gives another speed to the turnout that starts at a bit, most often a wrong one. If it had distances, or now has them, the length is
/// no longer the turnouts'.
fn spoil(random: &mut Random, packet: &mut [u8], turnout: usize) {
    let any = random.below(32);
    put(packet, turnout, SPEED_BITS, random.pick(&[0, 19, 30, any]));
}
