//! A recording in, its listing out.

use crate::answers::WRONG_RECORD;
use crate::modes::FLAGS;
use crate::packets;
use crate::session::{Answer, Pair, Session};
use std::io::{self, ErrorKind, Read, Write};

/// What every record begins with, and every entry of a mode trace.
pub const MARK: [u8; 2] = [0x4B, 0x56];
const HEADER: usize = 4;
/// Payload bytes of kinds 1 to 9; a loco and a ticket take 6.
const PAYLOADS: [usize; 9] = [6, 6, 6 + FLAGS, 14, 10, 10, 13, 8, 2];
/// The longest record is kind 3.
pub const LONGEST: usize = HEADER + PAYLOADS[2];
const MOST_RECORDS: u64 = 4_294_967_295;

/// One record run: what its line says after the record number, and the bytes it took.
#[derive(Clone, Copy, PartialEq, Eq, Debug)]
pub struct Run {
    /// 0 where the answer is 24.
    pub kind: u32,
    pub answer: Answer,
    pub used: usize,
}

/// Numbers taken one after another from a payload, high byte first.
struct Payload<'a>(&'a [u8]);

impl<'a> Payload<'a> {
    fn bytes(&mut self, count: usize) -> &'a [u8] {
        let (taken, rest) = self.0.split_at(count);
        self.0 = rest;
        taken
    }

    fn number(&mut self, count: usize) -> u32 {
        packets::number(self.bytes(count))
    }

    fn name(&mut self) -> Pair {
        Pair { loco: self.number(4), ticket: self.number(2) }
    }
}

/// Kind and payload of the first record, if its form is right.
fn first_record(bytes: &[u8]) -> Option<(u8, &[u8])> {
    let (header, rest) = bytes.split_at_checked(HEADER)?;
    let (kind, length) = (header[2], usize::from(header[3]));
    let due = *PAYLOADS.get(usize::from(kind).checked_sub(1)?)?;
    if header[..2] != MARK || length != due {
        return None;
    }
    Some((kind, rest.get(..length)?))
}

/// Judges the first record of `bytes` and runs it; what follows it is ignored.
pub fn run_first(session: &mut Session, bytes: &[u8]) -> Run {
    let Some((kind, payload)) = first_record(bytes) else {
        return Run { kind: 0, answer: Err(WRONG_RECORD).into(), used: 0 };
    };
    let answer = operate(session, kind, Payload(payload));
    Run { kind: u32::from(kind), answer, used: HEADER + payload.len() }
}

fn operate(session: &mut Session, kind: u8, mut of: Payload) -> Answer {
    match kind {
        1 => session.request(of.number(4), of.number(2)),
        2 => session.release(of.name()),
        3 => session.flags(of.name(), of.bytes(FLAGS)),
        4 => session.position(of.name(), of.number(4), of.number(4)),
        5 => session.authority(of.name(), of.number(4)),
        6 => session.danger(of.name(), of.number(4)),
        7 => session.sos(of.name(), of.name(), of.number(1)),
        8 => session.clear(of.name(), of.number(2)),
        9 => session.back(of.number(2)),
        _ => unreachable!("kinds are 1 to 9"),
    }
}

/// Reads until the buffer is full or the input ends; gives the bytes read.
fn fill(input: &mut impl Read, buffer: &mut [u8]) -> io::Result<usize> {
    let mut held = 0;
    while held < buffer.len() {
        match input.read(&mut buffer[held..]) {
            Ok(0) => break,
            Ok(count) => held += count,
            Err(error) if error.kind() == ErrorKind::Interrupted => {}
            Err(error) => return Err(error),
        }
    }
    Ok(held)
}

/// Fetches a header and as many bytes as it announces and the buffer can hold; 0 bytes at the end of the input.
fn fetch(input: &mut impl Read, buffer: &mut [u8; LONGEST]) -> io::Result<usize> {
    let held = fill(input, &mut buffer[..HEADER])?;
    if held < HEADER {
        return Ok(held);
    }
    let end = LONGEST.min(HEADER + usize::from(buffer[3]));
    Ok(held + fill(input, &mut buffer[HEADER..end])?)
}

/// The listing of a recording of any size. Both ends should be buffered.
pub fn listing(mut input: impl Read, mut output: impl Write) -> io::Result<()> {
    let mut session = Session::new();
    let mut record = [0; LONGEST];
    let (mut lines, mut accepted) = (0u64, 0u64);
    writeln!(output, "run")?;
    loop {
        let held = fetch(&mut input, &mut record)?;
        if held == 0 {
            break;
        }
        // One record too many is judged like no record at all.
        let judged = if lines < MOST_RECORDS { held } else { 0 };
        let Run { kind, answer: Answer { answer, numbers: [a, b, c] }, .. } =
            run_first(&mut session, &record[..judged]);
        lines += 1;
        accepted += u64::from(answer == 0);
        writeln!(output, "{lines} {kind} {answer} {a} {b} {c}")?;
        if answer == WRONG_RECORD {
            break;
        }
    }
    writeln!(output, "end {lines} {accepted}")?;
    output.flush()
}
