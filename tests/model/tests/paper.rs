//! Document 01's examples and the rules beside them, run on the model.

use bench_model::session::{Answer, Pair, Session, NONE};
use bench_model::{clock, modes, old_gates, packets, recording, sos, traces, turnouts};
use std::collections::BTreeSet;

fn accepted(numbers: [u32; 3]) -> Answer {
    Answer { answer: 0, numbers }
}

fn refused(answer: u32) -> Answer {
    Answer { answer, numbers: [0; 3] }
}

fn flags(set: &[usize]) -> [u8; 91] {
    let mut flags = [0; 91];
    for condition in set {
        flags[condition - 1] = 1;
    }
    flags
}

fn step(mode: &str, set: &[usize]) -> (u32, u32, u32) {
    let step = modes::step(modes::number(mode), &flags(set)).expect("accepted");
    (step.mode, step.priority, step.tie)
}

/// A session in which the trains 1, 2 .. of one slot each are registered, with their names.
fn trains(count: u32) -> (Session, Vec<Pair>) {
    let mut session = Session::new();
    let names = (1..=count).map(|n| Pair { loco: n, ticket: session.request(n, 54).numbers[0] }).collect();
    (session, names)
}

fn listing(bytes: &[u8]) -> String {
    let mut output = Vec::new();
    recording::listing(bytes, &mut output).expect("memory has no errors");
    String::from_utf8(output).expect("plain text")
}

const ONE_GATE: [u8; 7] = [0x30, 0xE1, 0x05, 0x14, 0x06, 0x12, 0x80];
const ONE_GATE_OUTSIDE: [u8; 9] = [2, 138, 0, 12, 1, 0, 2, 1, 0];

/// What framing says: the answer, the place and the sub-packet.
fn frame(bytes: &[u8]) -> (u32, u32, &[u8]) {
    let packets::Frame { answer, place, packet } = packets::frame(bytes);
    (answer, place, packet)
}

/// The answer and place of a read into so much room, which tells no gates and leaves the room as it was where it is refused.
fn read_into(room: usize, packet: &[u8]) -> (u32, u32) {
    let mut output = vec![7; room];
    let read = packets::read_gates(packet, &mut output);
    if read.answer != 0 {
        assert_eq!((read.gates, read.bytes, output), (0, 0, vec![7; room]));
    }
    (read.answer, read.place)
}

fn read(packet: &[u8]) -> (u32, u32) {
    read_into(28 * 9, packet)
}

/// A sub-packet of so many gates.
fn sound(gates: usize) -> Vec<u8> {
    let mut packet = vec![0; 125];
    let written = packets::write_gates(&ONE_GATE_OUTSIDE.repeat(gates), &mut packet);
    packet.truncate(written.bytes);
    packet
}

/// The same packet with another value in the field of `width` bits from bit `at` on.
fn with(packet: &[u8], at: usize, width: usize, value: u32) -> Vec<u8> {
    let mut packet = packet.to_vec();
    for bit in 0..width {
        let mask = 0x80 >> ((at + bit) % 8);
        let byte = &mut packet[(at + bit) / 8];
        *byte = if value >> (width - 1 - bit) & 1 == 1 { *byte | mask } else { *byte & !mask };
    }
    packet
}

/// The judged fields: their first bits in a gate, their widths and the values that are not allowed.
const JUDGED: [(usize, usize, &[u32]); 4] = [(15, 10, &[0, 1023]), (25, 3, &[7]), (29, 3, &[7]), (33, 2, &[3])];

/// The same packet with a judged field of a gate wrong.
fn spoiled(packet: &[u8], gate: usize, (at, width, wrong): (usize, usize, &[u32])) -> Vec<u8> {
    with(packet, first_bit(gate) + at, width, wrong[0])
}

/// The first bit of a gate.
fn first_bit(gate: usize) -> usize {
    16 + 35 * gate
}

#[test]
fn framing() {
    assert_eq!(frame(&[0x30, 0x40, 9]), (0, 0, &[0x30, 0x40][..]));
    assert_eq!(frame(&[]), (1, 0, &[][..]));
    assert_eq!(frame(&[0x30]), (1, 0, &[][..]));
    for kind in 8..16 {
        assert_eq!(frame(&[kind << 4, 0x00]), (2, 0, &[][..]));
        assert_eq!(frame(&[kind << 4, 0x40]), (2, 0, &[][..]));
    }
    for kind in 0..8 {
        assert_eq!(frame(&[kind << 4, 0x00]), (3, 4, &[][..]));
        assert_eq!(frame(&[kind << 4, 0x3F]), (3, 4, &[][..]));
        assert_eq!(frame(&[kind << 4, 0x60]), (1, 0, &[][..]));
        assert_eq!(frame(&[kind << 4, 0x7F, 0]), (0, 0, &[kind << 4, 0x7F, 0][..]));
    }
}

#[test]
fn gates_read() {
    let mut output = [7; 12];
    let read = packets::read_gates(&[0x30, 0x40], &mut output);
    assert_eq!((read.answer, read.gates, read.bytes, output), (0, 0, 2, [7; 12]));
    let read = packets::read_gates(&ONE_GATE, &mut output);
    assert_eq!((read.answer, read.gates, read.bytes), (0, 1, 7));
    assert_eq!((&output[..9], &output[9..]), (&ONE_GATE_OUTSIDE[..], &[7; 3][..]));
    assert_eq!(packets::read_gates(&ONE_GATE, &mut [0; 8]).answer, 1);
    let mut padded = ONE_GATE;
    padded[6] = 0x81;
    assert_eq!(packets::read_gates(&padded, &mut output).answer, 5);
    assert_eq!(packets::read_gates(&padded, &mut []).answer, 5);
    assert_eq!(packets::read_gates(&[0x40, 0x40], &mut output).answer, 2);
    assert_eq!(packets::read_gates(&[0x30, 0x41], &mut output).answer, 3);
}

#[test]
fn gates_written() {
    let mut output = [9; 8];
    let written = packets::write_gates(&ONE_GATE_OUTSIDE, &mut output);
    assert_eq!((written.answer, written.gates, written.bytes), (0, 1, 7));
    assert_eq!((&output[..7], output[7]), (&ONE_GATE[..], 9));
    let all: Vec<u8> = ONE_GATE_OUTSIDE.repeat(28);
    let mut long = [0; 125];
    assert_eq!(packets::write_gates(&all, &mut long).bytes, 125);
    let mut back = [0; 28 * 9];
    assert_eq!(packets::read_gates(&long, &mut back).gates, 28);
    assert_eq!(back[..], all[..]);
    assert_eq!(packets::write_gates(&ONE_GATE_OUTSIDE.repeat(29), &mut [0; 200]).answer, 3);
    assert_eq!(packets::write_gates(&[0; 8], &mut [0; 200]).answer, 3);
    assert_eq!(packets::write_gates(&[128, 0, 0, 12, 1, 0, 2, 1, 0], &mut []).answer, 4);
    assert_eq!(packets::write_gates(&ONE_GATE_OUTSIDE, &mut [0; 6]).answer, 1);
}

/// Numbers that look random and are the same in every run.
struct Chance(u64);

impl Chance {
    fn below(&mut self, bound: u32) -> u32 {
        self.0 = self.0.wrapping_mul(6_364_136_223_846_793_005).wrapping_add(1_442_695_040_888_963_407);
        ((self.0 >> 33) % u64::from(bound)) as u32
    }

    fn gate(&mut self) -> [u8; 9] {
        let (distance, number) = (self.below(32_768) as u16, 1 + self.below(1022) as u16);
        let small = [7, 2, 7, 2, 3].map(|bound| self.below(bound) as u8);
        let mut gate = [0; 9];
        gate[..2].copy_from_slice(&distance.to_be_bytes());
        gate[2..4].copy_from_slice(&number.to_be_bytes());
        gate[4..].copy_from_slice(&small);
        gate
    }

    /// A turnout's speed, distance and release distance, both zero where the speed is unrestricted.
    fn turnout(&mut self) -> [u32; 3] {
        match 1 + self.below(24) {
            speed @ 1..=18 => [speed, self.below(32_768), self.below(4_096)],
            _ => [31, 0, 0],
        }
    }
}

#[test]
fn gates_there_and_back() {
    let mut chance = Chance(1);
    for round in 0..29 * 200usize {
        let count = round % 29;
        let gates: Vec<u8> = (0..count).flat_map(|_| chance.gate()).collect();
        let mut packet = [0xFF; 127];
        let written = packets::write_gates(&gates, &mut packet);
        assert_eq!((written.answer, written.gates, written.bytes), (0, count, (16 + 35 * count).div_ceil(8)));
        let mut back = [0xFF; 28 * 9];
        let read = packets::read_gates(&packet, &mut back);
        assert_eq!((read.answer, read.place, read.gates, read.bytes), (0, 0, count, written.bytes));
        assert_eq!(back[..gates.len()], gates[..]);
        assert!(back[gates.len()..].iter().chain(&packet[written.bytes..]).all(|&byte| byte == 0xFF));
    }
}

#[test]
fn each_ground_has_its_place_in_the_shortest_input() {
    assert_eq!(read(&[0x30, 0x40]), (0, 0));
    assert_eq!(read(&ONE_GATE), (0, 0));
    assert_eq!(read(&[]), (1, 0));
    assert_eq!(read(&[0x30]), (1, 0));
    assert_eq!(read(&[0x30, 0x60]), (1, 0));
    assert_eq!(read_into(8, &ONE_GATE), (1, 0));
    for kind in (0..16).filter(|&kind| kind != 3) {
        assert_eq!(read(&[kind << 4, 0x40]), (2, 0));
    }
    assert_eq!(read(&[0x30, 0x00]), (3, 4));
    assert_eq!(read(&[0x30, 0x20]), (3, 4));
    assert_eq!(read(&[0x30, 0x41]), (3, 11));
    assert_eq!(read(&[0x30, 0x60, 0]), (3, 11));
    assert_eq!(read(&with(&ONE_GATE, 31, 10, 0)), (4, 31));
    let mut padded = ONE_GATE;
    padded[6] = 0x81;
    assert_eq!(read(&padded), (5, 55));
}

#[test]
fn a_wrong_field_is_told_by_its_first_bit() {
    for (gates, gate) in [(1, 0), (2, 0), (28, 0), (2, 1), (28, 1), (28, 27)] {
        for (at, width, wrong) in JUDGED {
            let place = first_bit(gate) + at;
            for value in 0..1 << width {
                let told = if wrong.contains(&value) { (4, place as u32) } else { (0, 0) };
                assert_eq!(read(&with(&sound(gates), place, width, value)), told);
            }
        }
        // All values are allowed in distance, manning and whistling.
        for (at, width) in [(0, 15), (28, 1), (32, 1)] {
            for value in [0, (1 << width) - 1] {
                assert_eq!(read(&with(&sound(gates), first_bit(gate) + at, width, value)), (0, 0));
            }
        }
    }
}

#[test]
fn of_several_wrong_fields_the_first_is_told() {
    for (first, one) in JUDGED.into_iter().enumerate() {
        for (second, other) in JUDGED.into_iter().enumerate() {
            // In one gate.
            let both = spoiled(&spoiled(&sound(28), 1, one), 1, other);
            assert_eq!(read(&both), (4, (first_bit(1) + JUDGED[first.min(second)].0) as u32));
            // In two: the field of the later gate may be one that comes earlier in a gate.
            for (gate, later) in [(0, 1), (0, 27), (1, 2), (26, 27)] {
                let both = spoiled(&spoiled(&sound(28), later, other), gate, one);
                assert_eq!(read(&both), (4, (first_bit(gate) + one.0) as u32));
            }
        }
    }
    let all = (0..28).flat_map(|gate| JUDGED.map(|field| (gate, field)));
    let last = all.rev().fold(sound(28), |packet, (gate, field)| {
        let wrong = spoiled(&packet, gate, field);
        assert_eq!(read(&wrong), (4, (first_bit(gate) + field.0) as u32));
        wrong
    });
    assert_eq!(read(&last), (4, 31));
}

#[test]
fn the_first_bit_set_of_the_padding_is_told() {
    for count in 0..=28 {
        let (packet, behind) = (sound(count), [0xFF; 2]);
        let padding = first_bit(count)..8 * packet.len();
        assert_eq!(padding.len(), 5 * count % 8);
        assert_eq!(read(&[&packet[..], &behind].concat()), (0, 0));
        for bit in padding.clone() {
            let one = with(&packet, bit, 1, 1);
            assert_eq!(read(&one), (5, bit as u32));
            assert_eq!(read_into(0, &one), (5, bit as u32));
            for later in bit..padding.end {
                assert_eq!(read(&with(&one, later, 1, 1)), (5, bit as u32));
            }
        }
        if !padding.is_empty() {
            let all = with(&packet, padding.start, padding.len(), u32::MAX);
            assert_eq!(read(&all), (5, padding.start as u32));
        }
    }
}

/// From wholly wrong to sound: each step mends what was told.
#[test]
fn the_place_is_that_of_the_ground_judged_first() {
    let count = with(&ONE_GATE, 11, 5, 2);
    let wrong = JUDGED.into_iter().fold(with(&count, 51, 5, 31), |packet, field| spoiled(&packet, 0, field));
    let wrong = with(&wrong, 4, 7, 1);
    let told = |packet: &[u8]| read_into(0, packet);
    assert_eq!(told(&with(&wrong, 0, 4, 8)[..1]), (1, 0));
    assert_eq!(told(&with(&wrong, 0, 4, 8)), (2, 0));
    assert_eq!(told(&wrong), (3, 4));
    let wrong = with(&wrong, 4, 7, 7);
    assert_eq!(told(&wrong[..6]), (1, 0));
    assert_eq!(told(&wrong), (3, 11));
    let wrong = with(&wrong, 11, 5, 1);
    assert_eq!(told(&wrong), (4, 31));
    let wrong = with(&wrong, 31, 10, 12);
    assert_eq!(told(&wrong), (4, 41));
    let wrong = with(&wrong, 41, 3, 1);
    assert_eq!(told(&wrong), (4, 45));
    let wrong = with(&wrong, 45, 3, 2);
    assert_eq!(told(&wrong), (4, 49));
    let wrong = with(&wrong, 49, 2, 0);
    assert_eq!(told(&wrong), (5, 51));
    let mended = with(&wrong, 51, 5, 0);
    assert_eq!(told(&mended), (1, 0));
    assert_eq!((read(&mended), &mended[..]), ((0, 0), &ONE_GATE[..]));
}

#[test]
fn every_place_is_listed() {
    let mut places = vec![(2, 0), (3, 4), (3, 11)];
    for gate in 0..28 {
        places.extend(JUDGED.map(|(at, ..)| (4, (first_bit(gate) + at) as u32)));
        places.extend((first_bit(gate + 1)..8 * sound(gate + 1).len()).map(|bit| (5, bit as u32)));
    }
    assert_eq!(packets::places(), places);
    assert_eq!(places.len(), 3 + 4 * 28 + 102);
}

/// 0011 0000110 00001, 001000001 0000001100 001 0 010 1 00, 000: the same gate in the old form, with 65 for 650 m. Worked out by hand.
const ONE_OLD_GATE: [u8; 6] = [0x30, 0xC1, 0x20, 0x81, 0x84, 0xA0];

/// A way to move gates: the bits of a distance in the form that is read, and in that which is written.
#[derive(Clone, Copy, PartialEq, Debug)]
struct Way {
    from: usize,
    to: usize,
}

const FORWARD: Way = Way { from: 9, to: 15 };
const BACK: Way = Way { from: 15, to: 9 };

impl Way {
    fn go(self, input: &[u8], output: &mut [u8]) -> old_gates::GatesMoved {
        if self == FORWARD {
            old_gates::forward(input, output)
        } else {
            old_gates::back(input, output)
        }
    }

    /// The answer and place of a move into so much room, which tells nothing else and leaves the room as it was where it is refused.
    fn told_into(self, room: usize, packet: &[u8]) -> (u32, u32) {
        let mut output = vec![7; room];
        let moved = self.go(packet, &mut output);
        if moved.answer != 0 {
            assert_eq!((moved.gates, moved.used, moved.written, output), (0, 0, 0, vec![7; room]));
        }
        (moved.answer, moved.place)
    }

    fn told(self, packet: &[u8]) -> (u32, u32) {
        self.told_into(125, packet)
    }

    /// What an accepted move writes, the room being larger. Bytes behind the sub-packet that is read are ignored.
    fn written(self, packet: &[u8]) -> Vec<u8> {
        let mut output = [7; 130];
        let moved = self.go(&[packet, &[0xFF; 3]].concat(), &mut output);
        assert_eq!((moved.answer, moved.place, moved.used), (0, 0, packet.len()));
        assert_eq!((moved.gates, moved.written), (count_of(packet), length(self.to, count_of(packet))));
        assert!(output[moved.written..].iter().all(|&byte| byte == 7));
        output[..moved.written].to_vec()
    }
}

/// The first bit of a gate in the form whose distances have so many bits.
fn start(distance: usize, gate: usize) -> usize {
    16 + (distance + 20) * gate
}

fn length(distance: usize, gates: usize) -> usize {
    start(distance, gates).div_ceil(8)
}

fn count_of(packet: &[u8]) -> usize {
    usize::from(packet[1] % 32)
}

/// A sub-packet of gates with these distances; all else in them is as in the paper's gate.
fn at_distances(bits: usize, distances: &[u32]) -> Vec<u8> {
    let length = length(bits, distances.len());
    let header = with(&vec![0; length], 0, 16, (3 << 12 | length << 5 | distances.len()) as u32);
    distances.iter().enumerate().fold(header, |packet, (gate, &distance)| {
        let at = start(bits, gate);
        with(&with(&packet, at, bits, distance), at + bits, 20, 0b0000001100_001_0_010_1_00)
    })
}

/// So many gates at 650 m, in the form that a way reads.
fn to_move(way: Way, gates: usize) -> Vec<u8> {
    at_distances(way.from, &vec![if way == FORWARD { 65 } else { 650 }; gates])
}

/// The judged fields of a gate, as they lie in a form.
fn judged(distance: usize) -> [(usize, usize, &'static [u32]); 4] {
    JUDGED.map(|(at, width, wrong)| (at - 15 + distance, width, wrong))
}

#[test]
fn gates_moved() {
    assert_eq!(to_move(FORWARD, 1), ONE_OLD_GATE);
    assert_eq!(to_move(BACK, 1), ONE_GATE);
    assert_eq!(FORWARD.written(&ONE_OLD_GATE), ONE_GATE);
    assert_eq!(BACK.written(&ONE_GATE), ONE_OLD_GATE);
    for way in [FORWARD, BACK] {
        assert_eq!(way.written(&[0x30, 0x40]), [0x30, 0x40]);
        for gates in 0..=28 {
            let packet = to_move(way, gates);
            assert_eq!(way.written(&packet), at_distances(way.to, &vec![if way == BACK { 65 } else { 650 }; gates]));
            assert_eq!(way.told_into(length(way.to, gates), &packet), (0, 0));
            assert_eq!(way.told_into(length(way.to, gates) - 1, &packet), (1, 0));
            assert_eq!(way.told_into(0, &packet), (1, 0));
        }
    }
    assert_eq!((length(9, 28), length(9, 31), length(15, 28)), (104, 115, 125));
}

#[test]
fn each_ground_of_a_move_has_its_place_in_the_shortest_input() {
    for (way, one) in [(FORWARD, &ONE_OLD_GATE[..]), (BACK, &ONE_GATE)] {
        assert_eq!(way.told(&[]), (1, 0));
        assert_eq!(way.told(&[0x30]), (1, 0));
        assert_eq!(way.told(&[0x30, 0x60]), (1, 0));
        assert_eq!(way.told(&one[..one.len() - 1]), (1, 0));
        for kind in (0..16).filter(|&kind| kind != 3) {
            assert_eq!(way.told(&[kind << 4, 0x40]), (2, 0));
        }
        assert_eq!(way.told(&[0x30, 0x00]), (3, 4));
        assert_eq!(way.told(&[0x30, 0x3F]), (3, 4));
        assert_eq!(way.told(&[0x30, 0x41]), (3, 11));
        assert_eq!(way.told(&[0x30, 0x60, 0]), (3, 11));
        assert_eq!(way.told(&with(one, 16 + way.from, 10, 0)), (4, 16 + way.from as u32));
        let last = 8 * one.len() - 1;
        assert_eq!(way.told(&with(one, last, 1, 1)), (5, last as u32));
    }
    assert_eq!(BACK.told(&with(&ONE_GATE, 16, 15, 651)), (6, 16));
}

#[test]
fn the_old_form_may_have_31_gates_but_28_go_forward() {
    for gates in 1..=31 {
        let old = to_move(FORWARD, gates);
        assert_eq!(FORWARD.told(&old), if gates > 28 { (3, 11) } else { (0, 0) });
        // With the other 3: before a field, the padding and the room.
        let wrong =
            with(&with(&old, 16 + 9, 10, 0), start(9, gates) - 2, 8 * old.len() + 2 - start(9, gates), u32::MAX);
        for room in [0, 140] {
            assert_eq!(FORWARD.told_into(room, &wrong), if gates > 28 { (3, 11) } else { (4, 25) });
        }
        // But after the bytes that are missing.
        assert_eq!(FORWARD.told(&old[..old.len() - 1]), (1, 0));
    }
}

#[test]
fn a_count_needs_its_length_in_the_form_that_is_read() {
    for way in [FORWARD, BACK] {
        for gates in 0..=31 {
            let zeros = vec![0; 127];
            for length in 2..=127 {
                let packet = with(&zeros, 0, 16, (3 << 12 | length << 5 | gates) as u32);
                let sound = gates <= 28 && length == self::length(way.from, gates);
                // Gates of zeros have a number of zero.
                let number = (4, 16 + way.from as u32);
                assert_eq!(way.told(&packet), if !sound { (3, 11) } else { [(0, 0), number][gates.min(1)] });
            }
        }
        for gates in 1..=28 {
            let other = Way { from: way.to, to: way.from };
            assert_eq!(way.told(&[&to_move(other, gates)[..], &[0; 30]].concat()), (3, 11));
        }
    }
}

#[test]
fn a_wrong_field_of_a_gate_to_move_is_told_by_its_first_bit() {
    for way in [FORWARD, BACK] {
        for (gates, gate) in [(1, 0), (2, 0), (28, 0), (2, 1), (28, 1), (28, 27)] {
            let packet = to_move(way, gates);
            for (at, width, wrong) in judged(way.from) {
                let place = start(way.from, gate) + at;
                for value in 0..1 << width {
                    let told = if wrong.contains(&value) { (4, place as u32) } else { (0, 0) };
                    assert_eq!(way.told(&with(&packet, place, width, value)), told);
                }
            }
            // All values are allowed in manning and whistling, and what is allowed is moved.
            for at in [13, 17] {
                let (here, there) = (start(way.from, gate) + way.from + at, start(way.to, gate) + way.to + at);
                for value in [0, 1] {
                    let expected = with(&way.written(&packet), there, 1, value);
                    assert_eq!(way.written(&with(&packet, here, 1, value)), expected);
                }
            }
        }
    }
}

#[test]
fn of_several_wrong_fields_of_gates_to_move_the_first_is_told() {
    for way in [FORWARD, BACK] {
        let all = (0..28).flat_map(|gate| judged(way.from).map(|(at, width, wrong)| (gate, at, width, wrong[0])));
        let last = all.rev().fold(to_move(way, 28), |packet, (gate, at, width, wrong)| {
            let place = start(way.from, gate) + at;
            let more = with(&packet, place, width, wrong);
            assert_eq!(way.told(&more), (4, place as u32));
            more
        });
        assert_eq!(way.told(&last), (4, 16 + way.from as u32));
    }
}

#[test]
fn the_first_bit_set_of_the_padding_of_gates_to_move_is_told() {
    for way in [FORWARD, BACK] {
        for gates in 0..=28 {
            let packet = to_move(way, gates);
            let padding = start(way.from, gates)..8 * packet.len();
            assert_eq!(padding.len(), if way == FORWARD { 3 * gates % 8 } else { 5 * gates % 8 });
            for bit in padding.clone() {
                for later in bit..padding.end {
                    let two = with(&with(&packet, bit, 1, 1), later, 1, 1);
                    assert_eq!((way.told(&two), way.told_into(0, &two)), ((5, bit as u32), (5, bit as u32)));
                }
            }
        }
    }
}

#[test]
fn every_old_distance_goes_forward_and_every_tenth_metre_up_to_5110_back() {
    for tens in 0..512 {
        assert_eq!(FORWARD.written(&at_distances(9, &[tens])), at_distances(15, &[10 * tens]));
    }
    for metres in 0..32_768 {
        let packet = at_distances(15, &[metres]);
        if metres % 10 == 0 && metres <= 5_110 {
            assert_eq!(BACK.written(&packet), at_distances(9, &[metres / 10]));
        } else {
            assert_eq!(BACK.told(&packet), (6, 16));
        }
    }
}

#[test]
fn of_several_distances_that_cannot_go_back_the_first_is_told() {
    for wrong in [1, 9, 5_101, 5_109, 5_111, 5_115, 5_120, 10_230, 32_760, 32_767] {
        let mut distances = [5_110; 28];
        for gate in (0..28).rev() {
            distances[gate] = wrong;
            let place = start(15, gate) as u32;
            assert_eq!(BACK.told(&at_distances(15, &distances)), (6, place));
            assert_eq!(BACK.told_into(0, &at_distances(15, &distances)), (6, place));
            assert_eq!(BACK.told(&at_distances(15, &distances[..=gate])), (6, place));
            // A field of any gate and the padding are judged before.
            for other in [0, gate, 27] {
                let field = start(15, other) + 33;
                assert_eq!(BACK.told(&with(&at_distances(15, &distances), field, 2, 3)), (4, field as u32));
            }
            let last = 8 * length(15, 28) - 1;
            assert_eq!(BACK.told(&with(&at_distances(15, &distances), last, 1, 1)), (5, last as u32));
        }
    }
}

/// From wholly wrong to sound: each step mends what was told.
#[test]
fn the_place_in_gates_to_move_is_that_of_the_ground_judged_first() {
    for way in [FORWARD, BACK] {
        let told = |packet: &[u8]| way.told_into(length(way.to, 2) - 1, packet);
        let (sound, end) = (to_move(way, 2), start(way.from, 2));
        let wrong = with(&sound, start(way.from, 1), way.from, u32::MAX);
        let wrong = judged(way.from)
            .iter()
            .fold(wrong, |packet, &(at, width, values)| with(&packet, start(way.from, 1) + at, width, values[0]));
        let wrong = with(&with(&wrong, end, 1, 1), 11, 5, 30);
        assert_eq!(told(&with(&wrong, 0, 11, 8 << 7 | 1)[..1]), (1, 0));
        assert_eq!(told(&with(&wrong, 0, 11, 8 << 7 | 1)), (2, 0));
        assert_eq!(told(&with(&wrong, 4, 7, 1)), (3, 4));
        assert_eq!(told(&wrong[..wrong.len() - 1]), (1, 0));
        assert_eq!(told(&wrong), (3, 11));
        let wrong = judged(way.from).iter().fold(with(&wrong, 11, 5, 2), |packet, &(at, width, _)| {
            let place = start(way.from, 1) + at;
            assert_eq!(told(&packet), (4, place as u32));
            with(&packet, place, width, 1)
        });
        assert_eq!(told(&wrong), (5, end as u32));
        let wrong = with(&wrong, end, 1, 0);
        // All ones go forward: 5,110 m.
        assert_eq!(told(&wrong), if way == BACK { (6, 51) } else { (1, 0) });
        let mended = with(&wrong, start(way.from, 1), way.from, 10);
        assert_eq!((told(&mended), way.told(&mended)), ((1, 0), (0, 0)));
    }
}

#[test]
fn gates_moved_there_and_back() {
    let mut chance = Chance(4);
    let mut accepted = [0; 29];
    for round in 0..29 * 300usize {
        let count = round % 29;
        let gates = |chance: &mut Chance| -> Vec<u8> { (0..count).flat_map(|_| chance.gate()).collect() };
        let mut packet = vec![0; length(15, count)];
        packets::write_gates(&gates(&mut chance), &mut packet);
        // All but the distances is random; these can go back, in every fourth round but for one.
        for gate in 0..count {
            packet = with(&packet, start(15, gate), 15, 10 * chance.below(512));
        }
        let odd = (count > 0 && round % 4 == 0).then(|| chance.below(count as u32) as usize);
        if let Some(gate) = odd {
            let distance = [5_120 + 10 * chance.below(2_765), 1 + 10 * chance.below(511) + chance.below(9)];
            packet = with(&packet, start(15, gate), 15, distance[round / 4 % 2]);
            assert_eq!(BACK.told(&packet), (6, start(15, gate) as u32));
            continue;
        }
        accepted[count] += 1;
        let old = BACK.written(&packet);
        assert_eq!(FORWARD.written(&old), packet);
        assert_eq!(BACK.written(&FORWARD.written(&old)), old);
    }
    assert!(accepted.iter().all(|&times| times > 100), "{accepted:?}");
}

#[test]
fn every_place_of_a_move_is_listed() {
    let places = |distance: usize| {
        let mut places = vec![(2, 0), (3, 4), (3, 11)];
        for gate in 0..28 {
            places.extend(judged(distance).map(|(at, ..)| (4, (start(distance, gate) + at) as u32)));
            places.extend((start(distance, gate + 1)..8 * length(distance, gate + 1)).map(|bit| (5, bit as u32)));
        }
        places
    };
    assert_eq!(old_gates::forward_places(), places(9));
    assert_eq!(places(9).len(), 3 + 4 * 28 + 98);
    let distances = (0..28).map(|gate| (6, start(15, gate) as u32));
    assert_eq!(old_gates::back_places(), places(15).into_iter().chain(distances).collect::<Vec<_>>());
}

// Worked out by hand: type 4, length, count, then of each turnout the speed 5 bits and, for 30 km/h, 1,200 m in 15 and 400 m in 12.
const NO_TURNOUTS: [u8; 2] = [0x40, 0x40];
/// 0100 0000110 01, 00110 000010010110000 000110010000, 000.
const RESTRICTED: [u8; 6] = [0x40, 0xC9, 0x82, 0x58, 0x0C, 0x80];
/// 0100 0000011 01, 11111, 000000.
const UNRESTRICTED: [u8; 3] = [0x40, 0x6F, 0xC0];
/// Both: 0100 0000111 10, 00110 000010010110000 000110010000, 11111, 000000.
const TWO_TURNOUTS: [u8; 7] = [0x40, 0xF1, 0x82, 0x58, 0x0C, 0x87, 0xC0];
const TWO_OUTSIDE: [u8; 10] = [6, 4, 176, 1, 144, 31, 0, 0, 0, 0];

/// The answer and place of a read of turnouts into so much room, which tells none and leaves the room as it was where it is refused.
fn turnouts_into(room: usize, packet: &[u8]) -> (u32, u32) {
    let mut output = vec![7; room];
    let read = turnouts::read_turnouts(packet, &mut output);
    if read.answer != 0 {
        assert_eq!((read.turnouts, read.bytes, output), (0, 0, vec![7; room]));
    }
    (read.answer, read.place)
}

fn read_turnouts(packet: &[u8]) -> (u32, u32) {
    turnouts_into(15, packet)
}

/// The answer of a write of turnouts into so much room, which tells none and leaves the room as it was where it is refused.
fn turnouts_written_into(room: usize, list: &[u8]) -> u32 {
    let mut output = vec![7; room];
    let written = turnouts::write_turnouts(list, &mut output);
    if written.answer != 0 {
        assert_eq!((written.turnouts, written.bytes, output), (0, 0, vec![7; room]));
    }
    written.answer
}

/// The bits that a turnout with such a code takes.
fn turnout_bits(speed: u32) -> usize {
    if (1..=18).contains(&speed) {
        32
    } else {
        5
    }
}

/// A sub-packet of turnouts, which may have any codes; and where each starts, with the bit behind the last.
fn turnout_packet(turnouts: &[[u32; 3]]) -> (Vec<u8>, Vec<usize>) {
    let mut starts = vec![13];
    starts.extend(turnouts.iter().scan(13, |end, &[speed, ..]| {
        *end += turnout_bits(speed);
        Some(*end)
    }));
    let length = starts[turnouts.len()].div_ceil(8);
    let header = (4 << 9 | length << 2 | turnouts.len()) as u32;
    let mut packet = with(&vec![0; length], 0, 13, header);
    for (&at, &[speed, distance, release]) in starts.iter().zip(turnouts) {
        packet = with(&packet, at, 5, speed);
        if turnout_bits(speed) == 32 {
            packet = with(&with(&packet, at + 5, 15, distance), at + 20, 12, release);
        }
    }
    (packet, starts)
}

/// Turnouts in every layout: none to three, each with distances, whose bits are all set, or without.
fn layouts() -> Vec<Vec<[u32; 3]>> {
    let mut all = vec![vec![]];
    for count in 0..3 {
        let longest: Vec<_> = all.iter().filter(|layout| layout.len() == count).cloned().collect();
        for layout in longest {
            for turnout in [[18, 32_767, 4_095], [31, 0, 0]] {
                all.push([&layout[..], &[turnout]].concat());
            }
        }
    }
    assert_eq!(all.len(), 1 + 2 + 4 + 8);
    all
}

fn outside(turnouts: &[[u32; 3]]) -> Vec<u8> {
    let bytes = |&[speed, distance, release]: &[u32; 3]| {
        let ([a, b], [c, d]) = ((distance as u16).to_be_bytes(), (release as u16).to_be_bytes());
        [speed as u8, a, b, c, d]
    };
    turnouts.iter().flat_map(bytes).collect()
}

#[test]
fn turnouts_read() {
    let mut output = [7; 12];
    let read = turnouts::read_turnouts(&NO_TURNOUTS, &mut output);
    assert_eq!((read.answer, read.place, read.turnouts, read.bytes, output), (0, 0, 0, 2, [7; 12]));
    for (packet, list) in
        [(&RESTRICTED[..], &TWO_OUTSIDE[..5]), (&UNRESTRICTED, &TWO_OUTSIDE[5..]), (&TWO_TURNOUTS, &TWO_OUTSIDE)]
    {
        let (count, length, mut output) = (list.len() / 5, packet.len(), [7; 12]);
        let read = turnouts::read_turnouts(&[packet, &[0xFF; 3]].concat(), &mut output);
        assert_eq!((read.answer, read.place, read.turnouts, read.bytes), (0, 0, count, length));
        assert_eq!((&output[..list.len()], &output[list.len()..]), (list, &[7; 12][list.len()..]));
        assert_eq!(turnouts_into(list.len(), packet), (0, 0));
        assert_eq!(turnouts_into(list.len() - 1, packet), (1, 0));
    }
}

#[test]
fn turnouts_written() {
    for (packet, list) in [
        (&NO_TURNOUTS[..], &[][..]),
        (&RESTRICTED, &TWO_OUTSIDE[..5]),
        (&UNRESTRICTED, &TWO_OUTSIDE[5..]),
        (&TWO_TURNOUTS, &TWO_OUTSIDE),
    ] {
        let (count, length, mut output) = (list.len() / 5, packet.len(), [9; 9]);
        let written = turnouts::write_turnouts(list, &mut output);
        assert_eq!((written.answer, written.turnouts, written.bytes), (0, count, length));
        assert_eq!((&output[..length], &output[length..]), (packet, &[9; 9][length..]));
        assert_eq!(turnouts_written_into(length, list), 0);
        assert_eq!(turnouts_written_into(length - 1, list), 1);
    }
    assert_eq!(turnouts_written_into(14, &TWO_OUTSIDE[..5].repeat(3)), 0);
    assert_eq!(turnouts_written_into(13, &TWO_OUTSIDE[..5].repeat(3)), 1);
}

#[test]
fn every_speed_code_of_a_turnout() {
    for speed in 0..=255 {
        let allowed = matches!(speed, 1..=18 | 31);
        for before in [vec![], vec![[31, 0, 0]], vec![[18, 32_767, 4_095]], vec![[31, 0, 0], [1, 0, 0]]] {
            for behind in [&[][..], &[[31, 0, 0]], &[[1, 5, 0]], &[[0, 0, 0]]] {
                let turnouts = [&before[..], &[[speed, 0, 0]], behind].concat();
                if turnouts.len() > 3 {
                    continue;
                }
                // The first wrong speed is told, and one of 0 may stand behind.
                let zero = behind == [[0, 0, 0]];
                assert_eq!(turnouts_written_into(14, &outside(&turnouts)), if allowed && !zero { 0 } else { 4 });
                if speed < 32 {
                    let (packet, starts) = turnout_packet(&turnouts);
                    let place = if allowed { starts[before.len() + 1] } else { starts[before.len()] };
                    let told = if allowed && !zero { (0, 0) } else { (4, place as u32) };
                    assert_eq!(read_turnouts(&packet), told);
                }
            }
        }
    }
}

#[test]
fn each_ground_of_turnouts_has_its_place_in_the_shortest_input() {
    assert_eq!(read_turnouts(&NO_TURNOUTS), (0, 0));
    assert_eq!(read_turnouts(&[]), (1, 0));
    assert_eq!(read_turnouts(&[0x40]), (1, 0));
    assert_eq!(read_turnouts(&[0x40, 0x60]), (1, 0));
    assert_eq!(turnouts_into(4, &UNRESTRICTED), (1, 0));
    for kind in (0..16).filter(|&kind| kind != 4) {
        assert_eq!(read_turnouts(&[kind << 4, 0x40]), (2, 0));
    }
    assert_eq!(read_turnouts(&[0x40, 0x00]), (3, 4));
    assert_eq!(read_turnouts(&[0x40, 0x3F]), (3, 4));
    // A speed runs past the sub-packet, whatever follows it; so does a distance; a byte is too many.
    assert_eq!(read_turnouts(&[0x40, 0x48]), (3, 11));
    assert_eq!(read_turnouts(&[0x40, 0x4F, 0xC0]), (3, 11));
    assert_eq!(read_turnouts(&[0x40, 0x69, 0x80, 0, 0, 0]), (3, 11));
    assert_eq!(read_turnouts(&[0x40, 0x60, 0]), (3, 11));
    for speed in [0, 19, 30] {
        assert_eq!(read_turnouts(&with(&UNRESTRICTED, 13, 5, speed)), (4, 13));
    }
    assert_eq!(read_turnouts(&[0x40, 0x41]), (5, 15));
}

#[test]
fn lengths_and_padding_of_every_layout_of_turnouts() {
    for layout in layouts() {
        let (packet, starts) = turnout_packet(&layout);
        let (length, end) = (packet.len(), starts[layout.len()]);
        let longer = [&packet[..], &[0xFF; 127]].concat();
        assert_eq!(read_turnouts(&longer), (0, 0));
        for cut in 2..length {
            assert_eq!(read_turnouts(&packet[..cut]), (1, 0));
        }
        for other in (2..128).filter(|&other| other != length) {
            assert_eq!(read_turnouts(&with(&longer, 4, 7, other as u32)), (3, 11));
        }
        for bit in end..8 * length {
            let one = with(&packet, bit, 1, 1);
            assert_eq!(turnouts_into(0, &one), (5, bit as u32));
            let all = with(&one, bit, 8 * length - bit, u32::MAX);
            assert_eq!(read_turnouts(&all), (5, bit as u32));
        }
    }
}

/// From wholly wrong to sound: each step mends what was told. The length is judged over all turnouts before any speed.
#[test]
fn the_place_in_turnouts_is_that_of_the_ground_judged_first() {
    let told = |packet: &[u8]| turnouts_into(14, packet);
    let (sound, starts) = turnout_packet(&[[31, 0, 0], [6, 1_200, 400], [31, 0, 0]]);
    assert_eq!((sound.len(), starts), (7, vec![13, 18, 50, 55]));
    let wrong = with(&with(&with(&sound, 13, 5, 0), 50, 5, 19), 55, 1, 1);
    assert_eq!(told(&with(&wrong, 0, 11, 8 << 7 | 1)[..1]), (1, 0));
    assert_eq!(told(&with(&wrong, 0, 11, 8 << 7 | 1)), (2, 0));
    assert_eq!(told(&with(&wrong, 4, 7, 1)), (3, 4));
    assert_eq!(told(&wrong[..6]), (1, 0));
    // The third has distances that run past the sub-packet.
    assert_eq!(told(&with(&wrong, 50, 5, 18)), (3, 11));
    assert_eq!(told(&[&with(&wrong, 4, 7, 8)[..], &[0]].concat()), (3, 11));
    assert_eq!(told(&wrong), (4, 13));
    let wrong = with(&wrong, 13, 5, 31);
    assert_eq!(told(&wrong), (4, 50));
    let wrong = with(&wrong, 50, 5, 31);
    assert_eq!(told(&wrong), (5, 55));
    let mended = with(&wrong, 55, 1, 0);
    assert_eq!(told(&mended), (1, 0));
    assert_eq!((read_turnouts(&mended), mended), ((0, 0), sound));
}

#[test]
fn lists_of_turnouts_that_cannot_be_written() {
    for length in 0..=40 {
        let sound = length % 5 == 0 && length <= 15;
        assert_eq!(turnouts_written_into(14, &[31, 0, 0, 0, 0].repeat(8)[..length]), if sound { 0 } else { 3 });
        // Room is judged last, and fields before it.
        assert_eq!(turnouts_written_into(0, &[31, 0, 0, 0, 0].repeat(8)[..length]), if sound { 1 } else { 3 });
        assert_eq!(
            turnouts_written_into(0, &vec![255; length]),
            if length == 0 {
                1
            } else if sound {
                4
            } else {
                3
            }
        );
    }
    for (distance, release, told) in [(32_767, 4_095, 0), (32_768, 0, 4), (65_535, 0, 4), (0, 4_096, 4), (0, 65_535, 4)]
    {
        for speed in [1, 18] {
            assert_eq!(turnouts_written_into(14, &outside(&[[31, 0, 0], [speed, distance, release]])), told);
        }
    }
    // What is absent is zero, in each of its bits.
    for bit in 8..40 {
        let list = with(&[31, 0, 0, 0, 0].repeat(3), 40 + bit, 1, 1);
        assert_eq!((turnouts_written_into(14, &list), turnouts_written_into(0, &list[5..10])), (4, 4));
    }
}

#[test]
fn turnouts_there_and_back() {
    let mut chance = Chance(2);
    for round in 0..4 * 1_000usize {
        let count = round % 4;
        let turnouts: Vec<[u32; 3]> = (0..count).map(|_| chance.turnout()).collect();
        let (list, (packet, _)) = (outside(&turnouts), turnout_packet(&turnouts));
        let mut output = [0xFF; 16];
        let written = turnouts::write_turnouts(&list, &mut output);
        assert_eq!((written.answer, written.turnouts, written.bytes), (0, count, packet.len()));
        assert_eq!(output[..packet.len()], packet[..]);
        let mut back = [0xFF; 16];
        let read = turnouts::read_turnouts(&output, &mut back);
        assert_eq!((read.answer, read.place, read.turnouts, read.bytes), (0, 0, count, packet.len()));
        assert_eq!(back[..list.len()], list[..]);
        assert!(back[list.len()..].iter().chain(&output[packet.len()..]).all(|&byte| byte == 0xFF));
    }
}

/// Whatever is accepted, of sub-packets with random bytes behind their header, is written as it was.
#[test]
fn turnouts_that_are_read_are_written_as_they_were() {
    let mut chance = Chance(3);
    let mut accepted = [0; 4];
    for _ in 0..200_000 {
        let length = [2, 3, 3, 4, 6, 7, 7, 10, 11, 14][chance.below(10) as usize];
        let header = 4 << 9 | length << 2 | chance.below(4);
        let random: Vec<u8> = (0..length).map(|_| chance.below(256) as u8).collect();
        // The padding is seldom all zero.
        let packet = with(&with(&random, 8 * length as usize - 3, 3, 0), 0, 13, header);
        let (mut list, mut again) = ([7; 15], vec![7; length as usize]);
        let read = turnouts::read_turnouts(&packet, &mut list);
        if read.answer == 0 {
            accepted[read.turnouts] += 1;
            let written = turnouts::write_turnouts(&list[..5 * read.turnouts], &mut again);
            assert_eq!((written.answer, written.turnouts, again), (0, read.turnouts, packet));
        }
    }
    assert!(accepted.iter().all(|&times| times > 100), "{accepted:?}");
}

#[test]
fn every_place_of_turnouts_is_listed() {
    let mut places = vec![(2, 0), (3, 4), (3, 11)];
    places.extend([13, 18, 23, 45, 50, 77].map(|speed| (4, speed)));
    for padding in [13..16, 18..24, 28..32, 45..48, 50..56, 77..80, 82..88, 109..112] {
        places.extend(padding.map(|bit| (5, bit)));
    }
    assert_eq!(turnouts::places(), places);
    assert_eq!(places.len(), 3 + 6 + 34);
}

#[test]
fn frame_ages() {
    let age = clock::frame_age(20, 11);
    assert_eq!((age.answer, age.age, age.fresh, age.stale, age.recent), (0, 4, false, false, true));
    assert!(clock::frame_age(86_400, 86_370).stale);
    assert!(clock::frame_age(3, 1).fresh);
    for (station, onboard, age) in
        [(1, 86_399, 1), (1, 86_400, 0), (86_400, 1, 43_199), (1, 2, 43_199), (11, 20, 43_195)]
    {
        assert_eq!(clock::frame_age(station, onboard).age, age);
    }
    for (station, onboard) in [(0, 0), (0, 1), (1, 0), (86_401, 1), (1, 86_401)] {
        assert_eq!(clock::frame_age(station, onboard).answer, 17);
    }
}

#[test]
fn eighty_transitions() {
    assert_eq!(modes::TRANSITIONS.len(), 13);
    assert_eq!(modes::TRANSITIONS.iter().map(Vec::len).sum::<usize>(), 80);
    assert_eq!((modes::SB, modes::OV), (modes::number("SB"), modes::number("OV")));
}

#[test]
fn priorities_that_transitions_share() {
    let shared = [("SB", 3), ("SB", 4), ("SR", 5), ("LS", 5), ("LS", 7), ("FS", 7), ("FS", 8), ("OS", 7), ("PT", 5)];
    assert_eq!(modes::ties(), BTreeSet::from(shared.map(|(mode, priority)| (modes::number(mode), priority))));
}

#[test]
fn mode_steps() {
    assert_eq!(step("FS", &[71, 76]), (3, 7, 1));
    assert_eq!(step("FS", &[69, 2]), (13, 1, 0));
    assert_eq!(step("TR", &[7]), (7, 0, 0));
    assert_eq!(step("RV", &[35]), (1, 4, 0));
    assert_eq!(step("SB", &[77, 60]), (2, 4, 0));
    assert_eq!(step("FS", &[71, 76, 58]), (3, 7, 1));
    assert_eq!(step("FS", &[71, 76, 69]), (7, 4, 0));
    assert_eq!(step("OS", &[71, 58, 56]), (5, 7, 1));
    assert_eq!(modes::step(14, &flags(&[])), Err(17));
    assert_eq!(modes::step(1, &[0; 90]), Err(17));
    assert_eq!(modes::step(1, &[2; 91]), Err(17));
}

/// The model keeps the best so far, as T-09's engine does. Here its steps are held to the rule as document 01 says it.
#[test]
fn the_best_so_far_is_the_best_of_all() {
    let mut chance = Chance(5);
    for round in 0..13 * 20_000 {
        let (mode, percent) = (round % 13 + 1, [2, 5, 20][round % 3]);
        let set: Vec<usize> = (1..=91).filter(|_| chance.below(100) < percent).collect();
        let open = modes::TRANSITIONS[mode - 1].iter().filter(|t| set.iter().any(|n| t.conditions >> n & 1 == 1));
        let best = open.clone().map(|t| t.priority).min();
        let sharing: BTreeSet<u32> = open.filter(|t| Some(t.priority) == best).map(|t| t.target).collect();
        let target = sharing.first().map_or(mode as u32, |&lowest| lowest);
        let due = modes::Step { mode: target, priority: best.unwrap_or(0), tie: u32::from(sharing.len() > 1) };
        assert_eq!(modes::step(mode as u32, &flags(&set)), Ok(due), "mode {mode}, conditions {set:?}");
    }
}

/// An entry of a mode trace.
fn entry(before: &str, set: &[usize], after: &str) -> Vec<u8> {
    let [before, after] = [before, after].map(|mode| modes::number(mode) as u8);
    [&[0x4B, 0x56, before], &flags(set)[..], &[after]].concat()
}

/// SB to OS, to TR, stays, to PT, and over a tie of OV and RV to OV: a right trace of five entries.
fn right_trace() -> Vec<u8> {
    let entries = [
        entry("SB", &[64], "OS"),
        entry("OS", &[69, 7], "TR"),
        entry("TR", &[7], "TR"),
        entry("TR", &[59], "PT"),
        entry("PT", &[86, 58], "OV"),
    ];
    entries.concat()
}

/// The answer to a trace, its entry and the mode due.
fn check(trace: &[u8]) -> (u32, usize, u32) {
    let traces::TraceAnswer { answer, entry, due } = traces::check_trace(trace);
    (answer, entry, due)
}

/// The answer to one entry, what is wrong, and the mode due.
fn check_entry(previous: u32, bytes: &[u8]) -> (u32, u32, u32) {
    let traces::EntryAnswer { answer, wrong, due } = traces::check_entry(previous, bytes);
    (answer, wrong, due)
}

/// The same bytes with another byte at an offset in the entry of a number.
fn changed(trace: &[u8], entry: usize, offset: usize, byte: u8) -> Vec<u8> {
    let mut trace = trace.to_vec();
    trace[95 * (entry - 1) + offset] = byte;
    trace
}

/// The offsets of the two modes of an entry.
const BEFORE: usize = 2;
const AFTER: usize = 94;

#[test]
fn right_traces() {
    assert_eq!(check(&[]), (0, 0, 0));
    for entries in 0..=5 {
        assert_eq!(check(&right_trace()[..95 * entries]), (0, 0, 0));
    }
    assert_eq!(check(&right_trace()[95..]), (0, 0, 0));
    assert_eq!(check(&entry("FS", &[71, 76], "LS")), (0, 0, 0));
    for mode in 1..=13 {
        let trace = changed(&changed(&entry("SB", &[], "SB"), 1, BEFORE, mode), 1, AFTER, mode);
        assert_eq!(check(&trace.repeat(300)), (0, 0, 0));
    }
}

#[test]
fn the_first_wrong_entry_of_a_trace_is_told_with_the_mode_due() {
    assert_eq!(check(&entry("FS", &[71, 76], "OV")), (0, 1, 3));
    assert_eq!(check(&entry("TR", &[7], "SB")), (0, 1, 7));
    for (number, due) in [(1, 6), (2, 7), (3, 7), (4, 8), (5, 5)] {
        for mode in (1..=13).filter(|&mode| mode != due) {
            let wrong = changed(&right_trace(), number, AFTER, mode);
            assert_eq!(check(&wrong), (0, number, u32::from(due)));
            // The entries after the first wrong one are not looked at.
            assert_eq!(check(&changed(&wrong, 5, AFTER, 13)), (0, number, u32::from(due)));
        }
    }
    for (number, due) in [(2, 6), (3, 7), (4, 7), (5, 8)] {
        for mode in (1..=13).filter(|&mode| mode != due) {
            let wrong = changed(&right_trace(), number, BEFORE, mode);
            assert_eq!(check(&wrong), (0, number, u32::from(due)));
            // Where both modes are wrong the mode before is.
            assert_eq!(check(&changed(&wrong, number, AFTER, 12)), (0, number, u32::from(due)));
        }
    }
    // The first mode before is free: another one is not wrong, but another mode is due after it.
    assert_eq!(check(&changed(&right_trace(), 1, BEFORE, 7)), (0, 1, 7));
    // The second entry is right by itself, but does not follow the first.
    assert_eq!(check(&[entry("SB", &[64], "OS"), entry("FS", &[69], "TR")].concat()), (0, 2, 6));
}

/// The answer to an entry that would be right, but for this byte at this offset; 0 where the byte is no ground for a refusal.
fn ground(offset: usize, byte: u8) -> u32 {
    match offset {
        0 | 1 => 24,
        BEFORE | AFTER if !(1..=13).contains(&byte) => 17,
        3..AFTER if byte > 1 => 17,
        _ => 0,
    }
}

#[test]
fn a_trace_is_refused_at_its_entry_before_that_is_judged() {
    let trace = right_trace();
    let places = (1..=5).flat_map(|number| (0..95).map(move |offset| (number, offset)));
    let bytes = [0, 1, 2, 13, 14, 255];
    for ((number, offset), byte) in places.flat_map(|place| bytes.map(|byte| (place, byte))) {
        let ground = ground(offset, byte);
        if ground == 0 {
            continue;
        }
        let refused = changed(&trace, number, offset, byte);
        assert_eq!(check(&refused), (ground, number, 0));
        // Also where a mode is wrong, and where the form is wrong too.
        let mode = if offset == BEFORE { AFTER } else { BEFORE };
        assert_eq!(check(&changed(&refused, number, mode, 11)), (ground, number, 0));
        assert_eq!(check(&changed(&refused, number, 1, 0)), (24, number, 0));
    }
}

#[test]
fn a_cut_trace_is_refused_at_the_cut_entry() {
    let trace = right_trace();
    for length in 0..trace.len() {
        let told = if length % 95 == 0 { (0, 0, 0) } else { (24, length / 95 + 1, 0) };
        assert_eq!(check(&trace[..length]), told);
    }
    assert_eq!(check(&[&trace[..], &[0x4B]].concat()), (24, 6, 0));
}

#[test]
fn what_is_told_of_a_trace_comes_before_what_follows_it() {
    let trace = right_trace();
    let faults = |number| {
        [
            (changed(&trace, number, AFTER, 13), 0),
            (changed(&trace, number, BEFORE, 13), 0),
            (changed(&trace, number, 0, 0), 24),
            (changed(&trace, number, 40, 2), 17),
        ]
    };
    for number in 2..=4 {
        for (one, answer) in faults(number) {
            for (other, _) in (number + 1..=5).flat_map(faults) {
                let both = [&one[..95 * number], &other[95 * number..]].concat();
                let (told, at, _) = check(&both);
                assert_eq!((told, at), (answer, number));
            }
            let cut = &one[..95 * number + 1];
            assert_eq!((check(cut).0, check(cut).1), (answer, number));
        }
    }
}

#[test]
fn one_entry_of_a_trace() {
    let entry = entry("FS", &[71, 76], "LS");
    for (previous, told) in
        [(0, (0, 0, 0)), (4, (0, 0, 0)), (1, (0, 1, 1)), (3, (0, 1, 3)), (13, (0, 1, 13)), (14, (17, 0, 0))]
    {
        assert_eq!(check_entry(previous, &entry), told);
        assert_eq!(check_entry(previous, &[&entry[..], &entry].concat()), told);
        assert_eq!(check_entry(previous, &[&entry[..], &[0xFF]].concat()), told);
        assert_eq!(check_entry(previous, &changed(&entry, 1, 3, 2)), (17, 0, 0));
        assert_eq!(check_entry(previous, &changed(&entry, 1, 1, 0)), (24, 0, 0));
        for length in [0, 1, 2, 94] {
            assert_eq!(check_entry(previous, &entry[..length]), (24, 0, 0));
        }
    }
    for previous in [256 + 4, 65_536 + 4, u32::MAX] {
        assert_eq!(check_entry(previous, &entry), (17, 0, 0));
    }
    let wrong = changed(&entry, 1, AFTER, 5);
    assert_eq!(check_entry(0, &wrong), (0, 2, 3));
    assert_eq!(check_entry(4, &wrong), (0, 2, 3));
    assert_eq!(check_entry(5, &wrong), (0, 1, 5));
}

/// An entry that is made up, and the mode that is due after it.
#[derive(Debug)]
struct Made {
    before: u32,
    set: Vec<usize>,
    after: u32,
    due: u32,
}

impl Chance {
    /// Up to five entries; of eight modes one is any.
    fn entries(&mut self) -> Vec<Made> {
        let mut entries = Vec::new();
        let mut mode = 1;
        for _ in 0..self.below(6) {
            let before = self.mode_or_any(mode);
            let set: Vec<usize> = (1..=91).filter(|_| self.below(100) < 10).collect();
            let due = modes::step(before, &flags(&set)).expect("accepted").mode;
            mode = self.mode_or_any(due);
            entries.push(Made { before, set, after: mode, due });
        }
        entries
    }

    fn mode_or_any(&mut self, mode: u32) -> u32 {
        let any = 1 + self.below(13);
        if self.below(8) == 0 {
            any
        } else {
            mode
        }
    }
}

/// T-12's own words, of traces whose form is right: each mode after is due, and each mode before is the previous mode after.
#[test]
fn a_trace_is_right_exactly_where_each_entry_is() {
    let mut chance = Chance(12);
    let mut right = 0;
    for _ in 0..20_000 {
        let entries = chance.entries();
        let previous = |n: usize| if n == 0 { entries[0].before } else { entries[n - 1].after };
        let wrong = |n: &usize| entries[*n].before != previous(*n) || entries[*n].after != entries[*n].due;
        let told = (0..entries.len()).find(wrong).map_or((0, 0, 0), |n| {
            let before = entries[n].before != previous(n);
            (0, n + 1, if before { previous(n) } else { entries[n].due })
        });
        let bytes = entries.iter().flat_map(|Made { before, set, after, .. }| {
            [&[0x4B, 0x56, *before as u8], &flags(set)[..], &[*after as u8]].concat()
        });
        assert_eq!(check(&bytes.collect::<Vec<u8>>()), told, "{entries:?}");
        right += usize::from(told == (0, 0, 0));
    }
    assert!((5_000..15_000).contains(&right), "{right} of 20,000 are right");
}

#[test]
fn grid_cells() {
    let cell = |grid, class| sos::cell(grid, class).map(|cell| (cell.m, cell.s));
    assert_eq!(cell(1, 2), Some((5, 1)));
    assert_eq!(cell(2, 9), Some((4, 2)));
    assert_eq!(cell(3, 8), Some((4, 2)));
    assert_eq!(cell(4, 4), Some((2, 3)));
    assert_eq!(cell(4, 7), Some((3, 2)));
    assert_eq!(cell(2, 4), None);
    let over = |left| sos::class(modes::OV, modes::number(left));
    assert_eq!(
        [over("SB"), over("OS"), over("FS"), over("PT"), over("SR")],
        [Some(5), Some(5), Some(6), Some(9), None]
    );
}

#[test]
fn slots_for_bytes() {
    let ask = |bytes| Session::new().request(7, bytes);
    assert_eq!(ask(54), accepted([1, 1, 1]));
    assert_eq!(ask(55), accepted([1, 1, 2]));
    assert_eq!(ask(324), accepted([1, 1, 6]));
    assert_eq!(ask(325), refused(11));
    assert_eq!(ask(0), refused(11));
}

#[test]
fn the_eighth_train() {
    let mut session = Session::new();
    for loco in 1..=7 {
        assert_eq!(session.request(loco, 324), accepted([loco, 6 * loco - 5, 6]));
    }
    assert_eq!(session.request(8, 324), refused(15));
    assert_eq!(session.request(8, 108), accepted([8, 43, 2]));
}

#[test]
fn ends_of_authority() {
    let (mut session, names) = trains(2);
    let (l2, l1) = (names[0], names[1]);
    assert_eq!(session.authority(l2, 9_000), accepted([1, 9_000, 0]));
    assert_eq!(session.danger(l2, 7_500), accepted([1, 7_500, 0]));
    session.position(l1, 6_400, 6_100);
    assert_eq!(session.flags(l1, &flags(&[62])), accepted([4, 4, 0]));
    assert_eq!(session.flags(l2, &flags(&[63])), accepted([5, 4, 0]));
    assert_eq!(session.end(l2), accepted([1, 9_000, 0]));
    assert_eq!(session.sos(l2, l1, 1), accepted([2, 2, 0]));
    assert_eq!(session.end(l2), accepted([1, 5_800, 0]));
    session.position(l1, 400, 200);
    session.sos(l2, l1, 1);
    assert_eq!(session.end(l2), accepted([1, 0, 0]));
    assert_eq!(session.clear(l2, l1.ticket), accepted([1, 9_000, 0]));
    assert_eq!(session.authority(l2, NONE), accepted([0, 0, 0]));
}

#[test]
fn a_head_on_sos_is_undone_for_both() {
    let (mut session, names) = trains(2);
    for &name in &names {
        session.flags(name, &flags(&[62]));
        session.position(name, 500, 300);
        session.authority(name, 9_000);
    }
    let before = session.clone();
    assert_eq!(session.sos(names[0], names[1], 3), accepted([4, 1, 0]));
    assert_eq!((session.end(names[0]), session.end(names[1])), (accepted([1, 500, 0]), accepted([1, 500, 0])));
    assert_eq!(session.back(1), accepted([before.entries_kept(), 0, 0]));
    assert_eq!(session, before);
}

#[test]
fn a_stale_ticket_finds_no_train_and_the_counter_stays() {
    let (mut session, names) = trains(1);
    session.release(names[0]);
    assert_eq!(session.request(1, 54), accepted([2, 1, 1]));
    assert_eq!(session.release(names[0]), refused(16));
    assert_eq!(session.release(Pair { loco: 1, ticket: 65_538 }), refused(16));
    assert_eq!(session.back(3), accepted([0, 0, 0]));
    assert_eq!((session.counter(), session.train(0), session.taken(1)), (2, None, false));
    assert_eq!(session.back(1), refused(22));
    assert_eq!(session.back(0), accepted([0, 0, 0]));
}

#[test]
fn the_oldest_entry_drops_out() {
    let (mut session, names) = trains(1);
    for metres in 0..128 {
        session.position(names[0], metres, metres);
    }
    assert_eq!(session.entries_kept(), 128);
    assert_eq!(session.back(129), refused(22));
    assert_eq!(session.back(128), accepted([0, 0, 0]));
    assert_eq!(session.train(0).map(|train| train.position), Some(None));
}

#[test]
fn refusals_come_in_the_table_s_order() {
    let (mut session, names) = trains(6);
    let (none, stray) = (Pair { loco: 0, ticket: 9 }, Pair { loco: 1, ticket: 2 });
    assert_eq!(session.sos(stray, none, 9), refused(10));
    assert_eq!(session.sos(stray, names[0], 9), refused(16));
    assert_eq!(session.sos(names[0], names[0], 9), refused(23));
    assert_eq!(session.sos(names[0], names[1], 9), refused(17));
    assert_eq!(session.sos(names[0], names[1], 1), refused(19));
    for &name in &names {
        session.flags(name, &flags(&[60]));
    }
    for &other in &names[1..5] {
        assert_eq!(session.sos(names[0], other, 1), accepted([5, 1, 0]));
    }
    assert_eq!(session.sos(names[0], names[5], 1), refused(20));
    assert_eq!(session.sos(names[5], names[0], 2), refused(20));
    // The same other ticket replaces, so a full train can still be named again.
    assert_eq!(session.sos(names[0], names[1], 2), accepted([6, 1, 0]));
    // In OS the order needs positions: a missing one is told before the missing place.
    session.flags(names[0], &flags(&[87]));
    assert_eq!(session.sos(names[0], names[5], 1), refused(18));
    assert_eq!(session.sos(names[0], names[5], 3), refused(18));
    session.position(names[5], 6_000, 5_800);
    assert_eq!(session.sos(names[0], names[5], 1), refused(20));
    assert_eq!(session.sos(names[0], names[5], 3), refused(18));
    session.position(names[0], 5_000, 4_800);
    assert_eq!(session.sos(names[0], names[5], 3), refused(20));
}

#[test]
fn the_paper_s_listing() {
    let bytes = [
        &[0x4B, 0x56, 1, 6, 0, 0, 0, 7, 0, 100][..],
        &[0x4B, 0x56, 1, 6, 0, 0, 0, 7, 0, 20],
        &[0x4B, 0x56, 2, 6, 0, 0, 0, 7, 0, 1],
    ]
    .concat();
    assert_eq!(listing(&bytes), "run\n1 1 0 1 1 2\n2 1 12 0 0 0\n3 2 0 0 0 0\nend 3 2\n");
    assert_eq!(listing(&bytes[..29]), "run\n1 1 0 1 1 2\n2 1 12 0 0 0\n3 0 24 0 0 0\nend 3 1\n");
    assert_eq!(listing(&[]), "run\nend 0 0\n");
    assert_eq!(listing(&[0x4B]), "run\n1 0 24 0 0 0\nend 1 0\n");
    assert_eq!(listing(&[0x4B, 0x56, 10, 0]), "run\n1 0 24 0 0 0\nend 1 0\n");
}
