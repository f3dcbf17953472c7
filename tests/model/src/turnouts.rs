//! Turnout sub-packets (document 002, turnout speed profile). The two distances follow a restricted speed only, so that turnouts
//! differ in length. Like all of sub-packets it knows nothing of trains.

use crate::answers::{BAD_FIELD, BAD_LENGTH, BAD_PADDING, BAD_TYPE, SHORT};
use crate::packets::{
    bits, framed, judge_padding, number, put_bits, put_header, refused, short, Refusal, COUNT, LENGTH, TYPE,
};
use std::collections::BTreeSet;
use std::iter::successors;

const TURNOUT_TYPE: u32 = 4;
const COUNT_BITS: usize = 2;
pub const MOST_TURNOUTS: usize = 3;
pub const HEADER_BITS: usize = COUNT + COUNT_BITS;

// The fields of a turnout, one behind the other; those after the speed may be absent.
pub const SPEED_BITS: usize = 5;
const DISTANCE_BITS: usize = 15;
const RELEASE_BITS: usize = 12;
/// A turnout that has all of them.
pub const TURNOUT_BITS: usize = SPEED_BITS + DISTANCE_BITS + RELEASE_BITS;

/// A turnout outside the sub-packet: the speed 1 byte, distance and release distance 2 each.
pub const TURNOUT_BYTES: usize = 5;

/// The codes of the speeds 5 to 90 km/h, in steps of 5. 0 is not used, and 19 to 30 are reserved.
pub const RESTRICTED: std::ops::RangeInclusive<u32> = 1..=18;
pub const UNRESTRICTED: u32 = 31;

#[derive(Clone, Copy, PartialEq, Eq, Debug, Default)]
pub struct TurnoutsRead {
    pub answer: u32,
    pub place: u32,
    pub turnouts: usize,
    /// Bytes of the sub-packet.
    pub bytes: usize,
}

/// A writer's refusal tells no place: its input is no sub-packet.
#[derive(Clone, Copy, PartialEq, Eq, Debug, Default)]
pub struct TurnoutsWritten {
    pub answer: u32,
    pub turnouts: usize,
    /// Bytes of the sub-packet.
    pub bytes: usize,
}

/// The bits that a turnout with this speed takes. A code that may not be sent has no distances either.
fn width(speed: u32) -> usize {
    if RESTRICTED.contains(&speed) {
        TURNOUT_BITS
    } else {
        SPEED_BITS
    }
}

/// A distance that is absent is zero.
struct Turnout {
    speed: u32,
    distance: u32,
    release: u32,
}

impl Turnout {
    /// That which starts at a bit of a sub-packet and does not run past it.
    fn in_packet(packet: &[u8], at: usize) -> Turnout {
        let speed = bits(packet, at, SPEED_BITS);
        if width(speed) == SPEED_BITS {
            return Turnout { speed, distance: 0, release: 0 };
        }
        let at = at + SPEED_BITS;
        let (distance, release) = (bits(packet, at, DISTANCE_BITS), bits(packet, at + DISTANCE_BITS, RELEASE_BITS));
        Turnout { speed, distance, release }
    }

    /// Its five bytes outside.
    fn in_list(bytes: &[u8]) -> Turnout {
        Turnout { speed: number(&bytes[..1]), distance: number(&bytes[1..3]), release: number(&bytes[3..]) }
    }

    fn is_allowed(&self) -> bool {
        match self.speed {
            UNRESTRICTED => self.distance == 0 && self.release == 0,
            speed => RESTRICTED.contains(&speed) && self.distance <= 32_767 && self.release <= 4_095,
        }
    }

    /// Puts it into bits of a sub-packet that are zero.
    fn put_in_packet(&self, packet: &mut [u8], at: usize) {
        put_bits(packet, at, SPEED_BITS, self.speed);
        if width(self.speed) == TURNOUT_BITS {
            put_bits(packet, at + SPEED_BITS, DISTANCE_BITS, self.distance);
            put_bits(packet, at + SPEED_BITS + DISTANCE_BITS, RELEASE_BITS, self.release);
        }
    }

    fn put_in_list(&self, bytes: &mut [u8]) {
        bytes[0] = self.speed as u8;
        bytes[1..3].copy_from_slice(&(self.distance as u16).to_be_bytes());
        bytes[3..].copy_from_slice(&(self.release as u16).to_be_bytes());
    }
}

/// Where each turnout starts, as many as there may be, until one starts so late that its speed runs past the sub-packet.
fn starts(packet: &[u8]) -> impl Iterator<Item = usize> + '_ {
    let end = 8 * packet.len();
    let next = move |&at: &usize| (at + SPEED_BITS <= end).then(|| at + width(bits(packet, at, SPEED_BITS)));
    successors(Some(HEADER_BITS), next)
}

/// Reads the first sub-packet of `input` as turnouts into `output`, five bytes for each.
pub fn read_turnouts(input: &[u8], output: &mut [u8]) -> TurnoutsRead {
    match turnouts_of(input, output.len()) {
        Ok((packet, turnouts)) => {
            let list = output[..turnouts * TURNOUT_BYTES].chunks_exact_mut(TURNOUT_BYTES);
            starts(packet).zip(list).for_each(|(at, bytes)| Turnout::in_packet(packet, at).put_in_list(bytes));
            TurnoutsRead { answer: 0, place: 0, turnouts, bytes: packet.len() }
        }
        Err(Refusal { answer, place }) => TurnoutsRead { answer, place, ..TurnoutsRead::default() },
    }
}

/// The turnout sub-packet at the front of the input and its count, with all the reader's rules judged in their order.
fn turnouts_of(input: &[u8], room: usize) -> Result<(&[u8], usize), Refusal> {
    let packet = framed(input, |kind| kind == TURNOUT_TYPE)?;
    let turnouts = bits(packet, COUNT, COUNT_BITS) as usize;
    // Behind the last turnout one more would start. A turnout that runs past the sub-packet makes its length wrong.
    let end = starts(packet).nth(turnouts).filter(|end| end.div_ceil(8) == packet.len());
    let end = end.ok_or(refused(BAD_LENGTH, COUNT))?;
    if let Some(wrong) = starts(packet).take(turnouts).find(|&at| !Turnout::in_packet(packet, at).is_allowed()) {
        return Err(refused(BAD_FIELD, wrong));
    }
    judge_padding(packet, end)?;
    if room < turnouts * TURNOUT_BYTES {
        return Err(short());
    }
    Ok((packet, turnouts))
}

/// Every answer and place of a refused read where some field is at fault, in order. It is for programs that say which of them they
/// have met.
pub fn places() -> Vec<(u32, u32)> {
    let mut found = BTreeSet::from([(BAD_TYPE, TYPE), (BAD_LENGTH, LENGTH), (BAD_LENGTH, COUNT)]);
    // Where so many turnouts may end, each with its distances or without.
    let mut ends = BTreeSet::from([HEADER_BITS]);
    for turnouts in 0..=MOST_TURNOUTS {
        for &end in &ends {
            found.extend((end..end.next_multiple_of(8)).map(|bit| (BAD_PADDING, bit)));
            // The speed of one more.
            if turnouts < MOST_TURNOUTS {
                found.insert((BAD_FIELD, end));
            }
        }
        ends = ends.iter().flat_map(|end| [end + SPEED_BITS, end + TURNOUT_BITS]).collect();
    }
    found.into_iter().map(|(answer, bit)| (answer, bit as u32)).collect()
}

/// Writes the turnouts in `input` as one sub-packet to the front of `output`.
pub fn write_turnouts(input: &[u8], output: &mut [u8]) -> TurnoutsWritten {
    match room_to_write(input, output.len()) {
        Ok(bytes) => {
            pack(input, &mut output[..bytes]);
            TurnoutsWritten { answer: 0, turnouts: input.len() / TURNOUT_BYTES, bytes }
        }
        Err(answer) => TurnoutsWritten { answer, ..TurnoutsWritten::default() },
    }
}

/// The bytes that the sub-packet takes, with all the writer's rules judged in their order.
fn room_to_write(input: &[u8], room: usize) -> Result<usize, u32> {
    if !input.len().is_multiple_of(TURNOUT_BYTES) || input.len() / TURNOUT_BYTES > MOST_TURNOUTS {
        return Err(BAD_LENGTH);
    }
    let turnouts = || input.chunks_exact(TURNOUT_BYTES).map(Turnout::in_list);
    if !turnouts().all(|turnout| turnout.is_allowed()) {
        return Err(BAD_FIELD);
    }
    let bytes = (HEADER_BITS + turnouts().map(|turnout| width(turnout.speed)).sum::<usize>()).div_ceil(8);
    if room < bytes {
        return Err(SHORT);
    }
    Ok(bytes)
}

fn pack(input: &[u8], packet: &mut [u8]) {
    put_header(packet, TURNOUT_TYPE, input.len() / TURNOUT_BYTES, COUNT_BITS);
    let mut at = HEADER_BITS;
    for turnout in input.chunks_exact(TURNOUT_BYTES).map(Turnout::in_list) {
        turnout.put_in_packet(packet, at);
        at += width(turnout.speed);
    }
}
