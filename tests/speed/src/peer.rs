//! A tuned peer of the gate reader and writer: what is written by hand where speed alone counts. It is made from documents 01 and 02
//! and shares nothing with the archive or the model; `comparison` holds it to the model's answers, places and bytes.
//!
//! A gate's 35 bits lie in one window of 64 bits, and a field is one shift and one mask of it. Each gate is judged and turned in one
//! pass, into bytes of the function's own; where all are allowed these are copied to the output. That takes fewer instructions than
//! a pass that judges and another that turns. The place of a wrong field is looked for where a read is refused.

const GATE: usize = 9;
const GATE_BITS: usize = 35;
const HEADER_BITS: usize = 16;
const MOST_GATES: usize = 28;
const GATE_TYPE: usize = 3;
/// A length has seven bits.
const LENGTHS: usize = 128;
/// So many bytes that a window may begin at any of those that a length counts.
const PACKET: usize = LENGTHS + 7;

/// The bits of a gate's first eight bytes that its fields have in the sub-packet.
const WIDTHS: u64 = 0x7FFF_03FF_0701_0701;
/// One in each of those fields whose greatest value is not allowed: number, suffix and class.
const ONES: u64 = 0x0000_0001_0100_0100;
const ONE_NUMBER: u64 = 0x0000_0001_0000_0000;

const SHORT: u32 = 1;
const BAD_TYPE: u32 = 2;
const BAD_LENGTH: u32 = 3;
const BAD_FIELD: u32 = 4;
const BAD_PADDING: u32 = 5;

/// The first bits of the header's fields.
const TYPE: u32 = 0;
const LENGTH: u32 = 4;
const COUNT: u32 = 11;
/// What is missing is in no field.
const MISSING: Refusal = (SHORT, 0);

/// The answer of a refused read, and its place.
type Refusal = (u32, u32);

#[derive(Clone, Copy, PartialEq, Eq, Debug, Default)]
pub struct Read {
    pub answer: u32,
    pub place: u32,
    pub gates: usize,
    pub bytes: usize,
}

#[derive(Clone, Copy, PartialEq, Eq, Debug, Default)]
pub struct Written {
    pub answer: u32,
    pub gates: usize,
    pub bytes: usize,
}

fn packet_length(gates: usize) -> usize {
    (HEADER_BITS + GATE_BITS * gates).div_ceil(8)
}

/// The bytes of the window that holds a gate from this bit on. The remainder shows the compiler that they are there.
fn window(bit: usize) -> std::ops::Range<usize> {
    let first = bit / 8 % LENGTHS;
    first..first + 8
}

fn first_word(bytes: &[u8]) -> u64 {
    u64::from_be_bytes(*bytes.first_chunk().expect("eight bytes"))
}

/// Not inlined, so that a call costs what it does to call the archive or the model.
#[inline(never)]
pub fn read_gates(input: &[u8], output: &mut [u8]) -> Read {
    match read(input, output) {
        Ok((gates, bytes)) => Read { answer: 0, place: 0, gates, bytes },
        Err((answer, place)) => Read { answer, place, ..Read::default() },
    }
}

fn read(input: &[u8], output: &mut [u8]) -> Result<(usize, usize), Refusal> {
    let header = usize::from(u16::from_be_bytes(*input.first_chunk().ok_or(MISSING)?));
    let (length, count) = (header >> 5 & 0x7F, header & 0x1F);
    if header >> 12 != GATE_TYPE {
        return Err((BAD_TYPE, TYPE));
    }
    // A length below 2 needs no test of its own before it is refused: its bytes are there, and no count has it.
    let input = input.get(..length).ok_or(MISSING)?;
    // Too many gates have no length of seven bits; the test of the count shows the compiler that `gates` has room for them.
    if count > MOST_GATES || length != packet_length(count) {
        return Err((BAD_LENGTH, if length < 2 { LENGTH } else { COUNT }));
    }
    // Nothing to judge or to fill, and no copies to make.
    if count == 0 {
        return Ok((0, length));
    }
    let mut packet = [0; PACKET];
    packet[..length].copy_from_slice(input);
    let mut gates = [[0; GATE]; MOST_GATES];
    let gates = &mut gates[..count];
    if !unpacked(&packet, gates) {
        return Err((BAD_FIELD, wrong_field(&packet)));
    }
    let padding = packet[length - 1] & ((1 << (length * 8 - (HEADER_BITS + GATE_BITS * count))) - 1);
    if padding != 0 {
        return Err((BAD_PADDING, (length * 8 - 8) as u32 + padding.leading_zeros()));
    }
    output.get_mut(..count * GATE).ok_or(MISSING)?.copy_from_slice(gates.as_flattened());
    Ok((count, length))
}

/// The gate from this bit on, in the top bits of a word.
fn gate_at(packet: &[u8; PACKET], bit: usize) -> u64 {
    first_word(&packet[window(bit)]) << (bit % 8)
}

/// The gates of a sub-packet, up to the first that is not allowed: whether there is none.
fn unpacked(packet: &[u8; PACKET], gates: &mut [[u8; GATE]]) -> bool {
    let mut bit = HEADER_BITS;
    for gate in gates {
        let bits = gate_at(packet, bit);
        let (distance, number) = ((bits >> 49) as u32, (bits >> 39) as u32 & 0x3FF);
        let (suffix, manning) = ((bits >> 36) as u8 & 7, (bits >> 35) as u8 & 1);
        let (class, whistling) = ((bits >> 32) as u8 & 7, (bits >> 31) as u8 & 1);
        let whistling_type = (bits >> 29) as u8 & 3;
        if !((number.wrapping_sub(1) < 1022) & (suffix != 7) & (class != 7) & (whistling_type != 3)) {
            return false;
        }
        gate[..4].copy_from_slice(&(distance << 16 | number).to_be_bytes());
        gate[4..].copy_from_slice(&[suffix, manning, class, whistling, whistling_type]);
        bit += GATE_BITS;
    }
    true
}

/// The first bit of the first field that is not allowed, of gates that are not all allowed. They are judged once more, so that a read
/// that is accepted does nothing for it.
#[cold]
fn wrong_field(packet: &[u8; PACKET]) -> u32 {
    let mut bit = HEADER_BITS;
    loop {
        let bits = gate_at(packet, bit);
        if matches!(bits >> 39 & 0x3FF, 0 | 0x3FF) {
            break bit as u32 + 15;
        } else if bits >> 36 & 7 == 7 {
            break bit as u32 + 25;
        } else if bits >> 32 & 7 == 7 {
            break bit as u32 + 29;
        } else if bits >> 29 & 3 == 3 {
            break bit as u32 + 33;
        }
        bit += GATE_BITS;
    }
}

#[inline(never)]
pub fn write_gates(input: &[u8], output: &mut [u8]) -> Written {
    match write(input, output) {
        Ok((gates, bytes)) => Written { answer: 0, gates, bytes },
        Err(answer) => Written { answer, ..Written::default() },
    }
}

fn write(input: &[u8], output: &mut [u8]) -> Result<(usize, usize), u32> {
    let (gates, rest) = input.as_chunks::<GATE>();
    if !rest.is_empty() || gates.len() > MOST_GATES {
        return Err(BAD_LENGTH);
    }
    let length = packet_length(gates.len());
    let header = GATE_TYPE << 12 | length << 5 | gates.len();
    let mut packet = [0; PACKET];
    packet[..2].copy_from_slice(&(header as u16).to_be_bytes());
    if !packed(gates, &mut packet) {
        return Err(BAD_FIELD);
    }
    output.get_mut(..length).ok_or(SHORT)?.copy_from_slice(&packet[..length]);
    Ok((gates.len(), length))
}

/// Packs gates into bytes that are zero: whether all are allowed.
fn packed(gates: &[[u8; GATE]], packet: &mut [u8; PACKET]) -> bool {
    let (mut bit, mut seen, mut greatest_type) = (HEADER_BITS, 0, 0);
    for gate in gates {
        let (word, whistling_type) = (first_word(gate), u64::from(gate[8]));
        // A field that is all ones runs over where one is added, and a number of 0 where one is taken away.
        seen |= word | word.wrapping_add(ONES) | word.wrapping_sub(ONE_NUMBER);
        greatest_type = whistling_type.max(greatest_type);
        // The suffix comes to lie before the manning and the class before the whistling, so that two fields are moved at once.
        let pairs = word | word >> 7;
        let bits = (word >> 48) << 49
            | (word >> 32 & 0x3FF) << 39
            | (pairs >> 16 & 15) << 35
            | (pairs & 15) << 31
            | whistling_type << 29;
        let place = &mut packet[window(bit)];
        // The window's first byte may hold the end of the gate before.
        let together = first_word(place) | bits >> (bit % 8);
        place.copy_from_slice(&together.to_be_bytes());
        bit += GATE_BITS;
    }
    seen & !WIDTHS == 0 && greatest_type < 3
}
