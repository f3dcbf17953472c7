//! Holds the peer to the model: both are called on the same random input, with outputs that hold the same bytes before, and must
//! give the same answer and the same place, and leave the same bytes.

use crate::peer;
use bench_model::packets;
use std::collections::BTreeSet;

/// Each is a read and a write.
const ROUNDS: u32 = 200_000;
const SEED: u64 = 20_231_026;

/// The bits of a gate's field, and the least and the greatest value allowed.
const FIELDS: [(u32, u32, u32); 7] =
    [(15, 0, 32_767), (10, 1, 1022), (3, 0, 6), (1, 0, 1), (3, 0, 6), (1, 0, 1), (2, 0, 2)];
const COUNTS: u32 = 32;
const MOST_ROOM: u32 = 300;

/// The numbers that a function tells, of which the first is its answer.
type Call<const N: usize> = fn(&[u8], &mut [u8]) -> [usize; N];

struct Function<const N: usize> {
    name: &'static str,
    peer: Call<N>,
    model: Call<N>,
    input: fn(&mut Random) -> Vec<u8>,
    answers: &'static [usize],
}

macro_rules! said {
    ($function:path, $($number:ident),+) => {
        |input, output| {
            let said = $function(input, output);
            [$(said.$number as usize),+]
        }
    };
}

const READ: Function<4> = Function {
    name: "read_gates",
    peer: said!(peer::read_gates, answer, place, gates, bytes),
    model: said!(packets::read_gates, answer, place, gates, bytes),
    input: packet,
    answers: &[0, 1, 2, 3, 4, 5],
};
const WRITE: Function<3> = Function {
    name: "write_gates",
    peer: said!(peer::write_gates, answer, gates, bytes),
    model: said!(packets::write_gates, answer, gates, bytes),
    input: list,
    answers: &[0, 1, 3, 4],
};

/// The generator splitmix64.
struct Random(u64);

impl Random {
    fn next(&mut self) -> u64 {
        self.0 = self.0.wrapping_add(0x9E37_79B9_7F4A_7C15);
        let mixed = (self.0 ^ self.0 >> 30).wrapping_mul(0xBF58_476D_1CE4_E5B9);
        let mixed = (mixed ^ mixed >> 27).wrapping_mul(0x94D0_49BB_1331_11EB);
        mixed ^ mixed >> 31
    }

    fn below(&mut self, bound: u32) -> u32 {
        (self.next() % u64::from(bound)) as u32
    }

    fn one_in(&mut self, times: u32) -> bool {
        self.below(times) == 0
    }

    fn bytes(&mut self, count: u32) -> Vec<u8> {
        (0..count).map(|_| self.next() as u8).collect()
    }
}

/// An allowed value, often the least or the greatest.
fn value(random: &mut Random, (_, least, greatest): (u32, u32, u32)) -> u32 {
    match random.below(4) {
        0 => least,
        1 => greatest,
        _ => least + random.below(greatest - least + 1),
    }
}

/// The fields of so many gates. In every third list one may be not allowed, or too large, and in every ninth more than one.
fn gates(random: &mut Random, count: u32) -> Vec<[u32; 7]> {
    let mut gates: Vec<[u32; 7]> = (0..count).map(|_| FIELDS.map(|field| value(random, field))).collect();
    while count > 0 && random.one_in(3) {
        let (gate, field) = (random.below(count) as usize, random.below(7) as usize);
        let (_, least, greatest) = FIELDS[field];
        gates[gate][field] = [least.wrapping_sub(1), greatest + 1, random.below(1 << 16)][random.below(3) as usize];
    }
    gates
}

fn cut(random: &mut Random, bytes: &mut Vec<u8>) {
    if random.one_in(6) {
        bytes.truncate(random.below(bytes.len() as u32 + 1) as usize);
    }
}

/// For the writer: gates of nine bytes, at times more than can be sent, or cut.
fn list(random: &mut Random) -> Vec<u8> {
    let count = random.below(COUNTS);
    let mut list = Vec::new();
    for [distance, number, rest @ ..] in gates(random, count) {
        list.extend([distance, number].map(|value| (value as u16).to_be_bytes()).as_flattened());
        list.extend(rest.map(|value| value as u8));
    }
    cut(random, &mut list);
    list
}

/// The low bits of a value, the highest first.
fn bits(value: u32, width: u32) -> impl Iterator<Item = u8> {
    (0..width).rev().map(move |at| (value >> at & 1) as u8)
}

/// The bits of a sub-packet, up to a whole byte. The padding is seldom not zero, and a count that cannot be sent has any length.
fn packet_bits(random: &mut Random, count: u32) -> Vec<u8> {
    let length = (16 + 35 * count).div_ceil(8);
    let length = if length < 128 { length } else { random.below(128) };
    let mut packet: Vec<u8> = bits(3, 4).chain(bits(length, 7)).chain(bits(count, 5)).collect();
    for gate in gates(random, count) {
        packet.extend(gate.iter().zip(FIELDS).flat_map(|(&value, (width, ..))| bits(value, width)));
    }
    let padding = if random.one_in(6) { random.below(128) } else { 0 };
    packet.extend(bits(padding, packet.len().next_multiple_of(8) as u32 - packet.len() as u32));
    packet
}

/// For the reader: a sub-packet and bytes behind it, at times with other bits or cut.
fn packet(random: &mut Random) -> Vec<u8> {
    let count = random.below(COUNTS);
    let number = |bits: &[u8]| bits.iter().fold(0, |byte, bit| byte << 1 | bit);
    let mut packet: Vec<u8> = packet_bits(random, count).chunks(8).map(number).collect();
    if random.one_in(2) {
        let behind = random.below(12);
        packet.extend(random.bytes(behind));
    }
    while random.one_in(3) {
        // Each second time in the header.
        let bytes = if random.one_in(2) { 2 } else { packet.len() as u32 };
        packet[random.below(bytes) as usize] ^= 1 << random.below(8);
    }
    cut(random, &mut packet);
    packet
}

/// One call by both: what they say.
fn compare<const N: usize>(function: &Function<N>, input: &[u8], output: &[u8]) -> [usize; N] {
    let (mut by_peer, mut by_model) = (output.to_vec(), output.to_vec());
    let peer = (function.peer)(input, &mut by_peer);
    let model = (function.model)(input, &mut by_model);
    assert!(
        peer == model && by_peer == by_model,
        "the peer and the model differ in {} of {input:02X?} into {output:02X?}:\npeer {peer:?}, {by_peer:02X?}\nmodel {model:?}, \
         {by_model:02X?}",
        function.name
    );
    model
}

/// Random calls of one function, each of whose answers must be met: all that was said.
fn compare_often<const N: usize>(function: &Function<N>) -> BTreeSet<[usize; N]> {
    let mut random = Random(SEED);
    let mut met = [0; 6];
    let mut all = BTreeSet::new();
    for _ in 0..ROUNDS {
        let input = (function.input)(&mut random);
        let room = random.below(MOST_ROOM);
        let output = random.bytes(room);
        let said = compare(function, &input, &output);
        met[said[0]] += 1;
        all.insert(said);
    }
    let wanted = function.answers.iter().all(|&answer| met[answer] > ROUNDS / 100);
    assert!(wanted, "an answer of {} is hardly met: {met:?}", function.name);
    all
}

pub fn peer_with_model() {
    let read = compare_often(&READ);
    for (answer, place) in packets::places() {
        let refusal = [answer as usize, place as usize, 0, 0];
        assert!(read.contains(&refusal), "no read was answered {answer} with place {place}");
    }
    compare_often(&WRITE);
}
