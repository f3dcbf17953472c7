//! Sub-packet framing and gate sub-packets (document 002). Nothing here knows of trains. The old form of gate sub-packets is that of
//! `old_gates`, by the same rules.

use crate::answers::{BAD_FIELD, BAD_LENGTH, BAD_PADDING, BAD_TYPE, SHORT};

const GATE_TYPE: u32 = 3;
/// More have no length of seven bits in the new form.
pub const MOST_GATES: usize = 28;
// The first bits of the header's fields: type 4 bits, length 7, and where there is one the count, of gates 5.
pub(crate) const TYPE: usize = 0;
pub const LENGTH: usize = 4;
pub const COUNT: usize = 11;
const COUNT_BITS: usize = 5;
pub const HEADER_BITS: usize = COUNT + COUNT_BITS;
pub const GATE_BITS: usize = NEW.gate_bits();
/// A gate outside the sub-packet.
pub const GATE_BYTES: usize = 9;

/// A field of a gate: its bits in the sub-packet, its bytes outside, and the values allowed.
struct Field {
    bits: usize,
    bytes: usize,
    allowed: std::ops::RangeInclusive<u32>,
}

impl Field {
    /// Whether its bits can hold a value that is not allowed.
    fn is_judged(&self) -> bool {
        self.allowed != (0..=(1 << self.bits) - 1)
    }
}

/// A form of gate sub-packets. The two that there are differ in a gate's distance alone.
pub(crate) struct Form {
    fields: [Field; 7],
    /// The metres that a distance of one stands for.
    pub unit: u32,
}

/// The new form: distances of 15 bits, in metres.
pub(crate) const NEW: Form = Form::new(15, 1);

impl Form {
    pub const fn new(distance_bits: usize, unit: u32) -> Form {
        let fields = [
            Field { bits: distance_bits, bytes: 2, allowed: 0..=(1 << distance_bits) - 1 }, // distance
            Field { bits: 10, bytes: 2, allowed: 1..=1022 },                                // number
            Field { bits: 3, bytes: 1, allowed: 0..=6 },                                    // suffix
            Field { bits: 1, bytes: 1, allowed: 0..=1 },                                    // manning
            Field { bits: 3, bytes: 1, allowed: 0..=6 },                                    // class
            Field { bits: 1, bytes: 1, allowed: 0..=1 },                                    // whistling
            Field { bits: 2, bytes: 1, allowed: 0..=2 },                                    // whistling type
        ];
        Form { fields, unit }
    }

    pub const fn gate_bits(&self) -> usize {
        let (mut bits, mut field) = (0, 0);
        while field < self.fields.len() {
            bits += self.fields[field].bits;
            field += 1;
        }
        bits
    }

    /// The first bit of a gate, counted from 0.
    pub fn start(&self, gate: usize) -> usize {
        HEADER_BITS + self.gate_bits() * gate
    }

    pub fn packet_length(&self, gates: usize) -> usize {
        self.start(gates).div_ceil(8)
    }

    /// Whether a distance has room in its field.
    pub fn holds(&self, distance: u32) -> bool {
        self.fields[0].allowed.contains(&distance)
    }

    /// The gate sub-packet at the front of the input and its count, with all the reader's rules but that for room judged in their order.
    pub fn gates_of<'a>(&self, input: &'a [u8]) -> Result<(&'a [u8], usize), Refusal> {
        let packet = framed(input, |kind| kind == GATE_TYPE)?;
        let gates = bits(packet, COUNT, COUNT_BITS) as usize;
        // What is read in the old form is to go into the new one, so that it may have no more gates either.
        if gates > MOST_GATES || packet.len() != self.packet_length(gates) {
            return Err(refused(BAD_LENGTH, COUNT));
        }
        let mut at = HEADER_BITS;
        for _ in 0..gates {
            for field in &self.fields {
                if !field.allowed.contains(&bits(packet, at, field.bits)) {
                    return Err(refused(BAD_FIELD, at));
                }
                at += field.bits;
            }
        }
        judge_padding(packet, at)?;
        Ok((packet, gates))
    }

    /// Every answer and place of `gates_of` where some field is at fault.
    pub fn places(&self) -> Vec<(u32, u32)> {
        let mut found = vec![(BAD_TYPE, TYPE), (BAD_LENGTH, LENGTH), (BAD_LENGTH, COUNT)];
        let mut at = HEADER_BITS;
        for gates in 1..=MOST_GATES {
            for field in &self.fields {
                if field.is_judged() {
                    found.push((BAD_FIELD, at));
                }
                at += field.bits;
            }
            found.extend((at..8 * self.packet_length(gates)).map(|bit| (BAD_PADDING, bit)));
        }
        found.into_iter().map(|(answer, bit)| (answer, bit as u32)).collect()
    }

    pub fn unpack(&self, packet: &[u8], list: &mut [u8]) {
        let mut at = HEADER_BITS;
        for gate in list.chunks_exact_mut(GATE_BYTES) {
            let mut rest = gate;
            for field in &self.fields {
                let (bytes, after) = rest.split_at_mut(field.bytes);
                let value = bits(packet, at, field.bits).to_be_bytes();
                bytes.copy_from_slice(&value[4 - field.bytes..]);
                at += field.bits;
                rest = after;
            }
        }
    }

    pub fn pack(&self, list: &[u8], packet: &mut [u8]) {
        put_header(packet, GATE_TYPE, list.len() / GATE_BYTES, COUNT_BITS);
        let mut at = HEADER_BITS;
        for gate in list.chunks_exact(GATE_BYTES) {
            let mut rest = gate;
            for field in &self.fields {
                let (value, after) = rest.split_at(field.bytes);
                put_bits(packet, at, field.bits, number(value));
                at += field.bits;
                rest = after;
            }
        }
    }
}

#[derive(Clone, Copy, PartialEq, Eq, Debug)]
pub struct Frame<'a> {
    pub answer: u32,
    pub place: u32,
    /// The sub-packet, header included; empty on a refusal.
    pub packet: &'a [u8],
}

#[derive(Clone, Copy, PartialEq, Eq, Debug, Default)]
pub struct GatesRead {
    pub answer: u32,
    pub place: u32,
    pub gates: usize,
    /// Bytes of the sub-packet.
    pub bytes: usize,
}

/// A writer's refusal tells no place: its input is no sub-packet.
#[derive(Clone, Copy, PartialEq, Eq, Debug, Default)]
pub struct GatesWritten {
    pub answer: u32,
    pub gates: usize,
    /// Bytes of the sub-packet.
    pub bytes: usize,
}

/// Why a sub-packet is refused, and where: the first bit of the field at fault, counted from the start of the sub-packet.
pub(crate) struct Refusal {
    pub answer: u32,
    pub place: u32,
}

pub(crate) fn refused(answer: u32, bit: usize) -> Refusal {
    Refusal { answer, place: bit as u32 }
}

/// Bytes or room that are missing are in no field: their place is 0.
pub(crate) fn short() -> Refusal {
    refused(SHORT, 0)
}

/// At most four bytes as one number, high byte first.
pub fn number(bytes: &[u8]) -> u32 {
    bytes.iter().fold(0, |n, &byte| n << 8 | u32::from(byte))
}

/// The field of `width` bits, at most 17, that begins at bit `at`, counted from the top bit of the first byte.
pub(crate) fn bits(bytes: &[u8], at: usize, width: usize) -> u32 {
    let end = at + width;
    let below = end.next_multiple_of(8) - end;
    number(&bytes[at / 8..end.div_ceil(8)]) >> below & ((1 << width) - 1)
}

/// Puts a field into bytes that are zero there.
pub(crate) fn put_bits(bytes: &mut [u8], at: usize, width: usize, value: u32) {
    let end = at + width;
    let below = end.next_multiple_of(8) - end;
    let spread = (value << below).to_be_bytes();
    let stretch = &mut bytes[at / 8..end.div_ceil(8)];
    let first = spread.len() - stretch.len();
    for (byte, part) in stretch.iter_mut().zip(&spread[first..]) {
        *byte |= part;
    }
}

/// The first sub-packet of the input, header included, judged with the given rule for types.
pub(crate) fn framed(input: &[u8], type_fits: impl Fn(u32) -> bool) -> Result<&[u8], Refusal> {
    if input.len() < 2 {
        return Err(short());
    }
    if !type_fits(bits(input, TYPE, 4)) {
        return Err(refused(BAD_TYPE, TYPE));
    }
    let length = bits(input, LENGTH, 7) as usize;
    if length < 2 {
        return Err(refused(BAD_LENGTH, LENGTH));
    }
    input.get(..length).ok_or(short())
}

/// Zero bits alone fill a sub-packet up from bit `at` on.
pub(crate) fn judge_padding(packet: &[u8], at: usize) -> Result<(), Refusal> {
    match (at..packet.len() * 8).find(|&bit| bits(packet, bit, 1) == 1) {
        Some(set) => Err(refused(BAD_PADDING, set)),
        None => Ok(()),
    }
}

/// Makes a sub-packet of zeros and its header; the count has so many bits.
pub(crate) fn put_header(packet: &mut [u8], kind: u32, count: usize, count_bits: usize) {
    packet.fill(0);
    put_bits(packet, TYPE, 4, kind);
    put_bits(packet, LENGTH, 7, packet.len() as u32);
    put_bits(packet, COUNT, count_bits, count as u32);
}

/// Framing: the first sub-packet of `input`, of any type.
pub fn frame(input: &[u8]) -> Frame<'_> {
    match framed(input, |kind| kind < 8) {
        Ok(packet) => Frame { answer: 0, place: 0, packet },
        Err(Refusal { answer, place }) => Frame { answer, place, packet: &[] },
    }
}

/// Reads the first sub-packet of `input` as gates into `output`, nine bytes for each.
pub fn read_gates(input: &[u8], output: &mut [u8]) -> GatesRead {
    let refusal = |Refusal { answer, place }| GatesRead { answer, place, ..GatesRead::default() };
    read(input, output).unwrap_or_else(refusal)
}

fn read(input: &[u8], output: &mut [u8]) -> Result<GatesRead, Refusal> {
    let (packet, gates) = NEW.gates_of(input)?;
    let list = output.get_mut(..gates * GATE_BYTES).ok_or(short())?;
    NEW.unpack(packet, list);
    Ok(GatesRead { answer: 0, place: 0, gates, bytes: packet.len() })
}

/// Every answer and place of a refused read where some field is at fault. It is for programs that say which of them they have met.
pub fn places() -> Vec<(u32, u32)> {
    NEW.places()
}

/// Writes the gates in `input` as one sub-packet to the front of `output`.
pub fn write_gates(input: &[u8], output: &mut [u8]) -> GatesWritten {
    match room_to_write(input, output.len()) {
        Ok(bytes) => {
            NEW.pack(input, &mut output[..bytes]);
            GatesWritten { answer: 0, gates: input.len() / GATE_BYTES, bytes }
        }
        Err(answer) => GatesWritten { answer, ..GatesWritten::default() },
    }
}

/// The bytes that the sub-packet takes, with all the writer's rules judged in their order.
fn room_to_write(input: &[u8], room: usize) -> Result<usize, u32> {
    if !input.len().is_multiple_of(GATE_BYTES) || input.len() / GATE_BYTES > MOST_GATES {
        return Err(BAD_LENGTH);
    }
    for gate in input.chunks_exact(GATE_BYTES) {
        let mut rest = gate;
        for field in &NEW.fields {
            let (value, after) = rest.split_at(field.bytes);
            if !field.allowed.contains(&number(value)) {
                return Err(BAD_FIELD);
            }
            rest = after;
        }
    }
    let bytes = NEW.packet_length(input.len() / GATE_BYTES);
    if room < bytes {
        return Err(SHORT);
    }
    Ok(bytes)
}
