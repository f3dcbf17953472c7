//! Gate sub-packets in the older form of document 002, moved to the new form and back. A distance has 9 bits there, in tens of
//! metres; all else is the same.

use crate::answers::BAD_DISTANCE;
use crate::packets::{number, refused, short, Form, Refusal, GATE_BYTES, MOST_GATES, NEW};

const OLD: Form = Form::new(9, 10);
pub const GATE_BITS: usize = OLD.gate_bits();

#[derive(Clone, Copy, PartialEq, Eq, Debug, Default)]
pub struct GatesMoved {
    pub answer: u32,
    /// Counted in the sub-packet that was read.
    pub place: u32,
    pub gates: usize,
    /// Bytes of the sub-packet that was read.
    pub used: usize,
    /// Bytes of the sub-packet that was written.
    pub written: usize,
}

/// Moves the first sub-packet of `input`, which is in the old form, to the front of `output`, in the new form.
pub fn forward(input: &[u8], output: &mut [u8]) -> GatesMoved {
    told(moved(&OLD, &NEW, input, output))
}

/// Moves the first sub-packet of `input`, which is in the new form, to the front of `output`, in the old form.
pub fn back(input: &[u8], output: &mut [u8]) -> GatesMoved {
    told(moved(&NEW, &OLD, input, output))
}

fn told(moved: Result<GatesMoved, Refusal>) -> GatesMoved {
    moved.unwrap_or_else(|Refusal { answer, place }| GatesMoved { answer, place, ..GatesMoved::default() })
}

fn moved(from: &Form, to: &Form, input: &[u8], output: &mut [u8]) -> Result<GatesMoved, Refusal> {
    let (packet, gates) = from.gates_of(input)?;
    let mut list = vec![0; gates * GATE_BYTES];
    from.unpack(packet, &mut list);
    scale(from, to, &mut list)?;
    let written = to.packet_length(gates);
    to.pack(&list, output.get_mut(..written).ok_or(short())?);
    Ok(GatesMoved { answer: 0, place: 0, gates, used: packet.len(), written })
}

/// Turns the distances of gates that were read in one form into those of the other, which may have none for so many metres.
fn scale(from: &Form, to: &Form, list: &mut [u8]) -> Result<(), Refusal> {
    for (n, gate) in list.chunks_exact_mut(GATE_BYTES).enumerate() {
        let (distance, _) = gate.split_at_mut(2);
        let metres = number(distance) * from.unit;
        let other = metres / to.unit;
        if other * to.unit != metres || !to.holds(other) {
            return Err(refused(BAD_DISTANCE, from.start(n)));
        }
        distance.copy_from_slice(&(other as u16).to_be_bytes());
    }
    Ok(())
}

/// Every answer and place of a refused move forward where some field is at fault. It is for programs that say which of them they have met.
pub fn forward_places() -> Vec<(u32, u32)> {
    OLD.places()
}

/// The same of a move back.
pub fn back_places() -> Vec<(u32, u32)> {
    let distances = (0..MOST_GATES).map(|gate| (BAD_DISTANCE, NEW.start(gate) as u32));
    NEW.places().into_iter().chain(distances).collect()
}
