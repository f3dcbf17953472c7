//! Operations as records of a recording: sound, damaged, cut, and with bytes behind them.

use crate::random::Random;
use crate::wire::{Call, Kind};
use bench_model::recording::MARK;

/// The payload of an operation. Numbers are cut to the record's widths.
fn payload(call: &Call) -> Vec<u8> {
    let [a, b, c, d, e] = call.n;
    let word = |n: u32| n.to_be_bytes().to_vec();
    let half = |n: u32| (n as u16).to_be_bytes().to_vec();
    let parts = match call.kind {
        Kind::Request => vec![word(a), half(b)],
        Kind::Flags => vec![word(a), half(b), call.given.clone()],
        Kind::Position => vec![word(a), half(b), word(c), word(d)],
        Kind::Authority | Kind::Danger => vec![word(a), half(b), word(c)],
        Kind::Sos => vec![word(a), half(b), word(c), half(d), vec![e as u8]],
        Kind::Clear => vec![word(a), half(b), half(c)],
        Kind::StepBack => vec![half(a)],
        _ => vec![word(a), half(b)],
    };
    parts.concat()
}

/// The call that runs an operation as a record; of a question it makes a release.
pub fn call(random: &mut Random, operation: &Call) -> Call {
    let kind = if operation.kind.may_change() { operation.kind as u8 } else { Kind::Release as u8 };
    let payload = payload(operation);
    let mut record = [&MARK[..], &[kind, payload.len() as u8], &payload].concat();
    match random.below(20) {
        0 => record.truncate(random.below(record.len() as u32) as usize),
        1 => record[random.below(4) as usize] = random.word() as u8,
        2 | 3 => {
            let length = random.below(9) as usize;
            record.extend(random.bytes(length));
        }
        _ => {}
    }
    let before = if random.chance(90) { random.below(1_000_000) } else { random.number() };
    Call::new(Kind::RunRecord, &[before]).with(record)
}

pub fn is_request(call: &Call) -> bool {
    call.given.get(2) == Some(&1)
}

/// The loco of a record that names one.
pub fn loco(call: &Call) -> u32 {
    u32::from_be_bytes(call.given[4..8].try_into().expect("four bytes"))
}
