//! Runs the calls of tests/session_cases.py on the model's session and prints what the driver of tests/host must print of them.
//!
//! A call: kind (1 byte), session bytes lent and length of the rest (2 each), then numbers of 4 bytes and flags.

use bench_model::header::SESSION_SIZE;
use bench_model::session::{Answer, Pair, Session};
use bench_model::train::{Order, Train};
use std::io::{self, Read, Write};

/// The answer to a session that is lent with any other length.
const WRONG_LENGTH: u32 = 34;

struct Call<'a> {
    kind: u32,
    lent: u32,
    rest: &'a [u8],
}

fn big(bytes: &[u8]) -> u32 {
    bytes.iter().fold(0, |number, &byte| number << 8 | u32::from(byte))
}

impl<'a> Call<'a> {
    fn first(bytes: &'a [u8]) -> (Call<'a>, &'a [u8]) {
        let (rest, next) = bytes[5..].split_at(big(&bytes[3..5]) as usize);
        (Call { kind: big(&bytes[..1]), lent: big(&bytes[1..3]), rest }, next)
    }

    fn number(&self, n: usize) -> u32 {
        big(&self.rest[4 * n..4 * n + 4])
    }

    fn name(&self, n: usize) -> Pair {
        Pair { loco: self.number(n), ticket: self.number(n + 1) }
    }

    fn answer(&self, session: &mut Session) -> Answer {
        if self.lent != SESSION_SIZE {
            return Err(WRONG_LENGTH).into();
        }
        match self.kind {
            0 => {
                *session = Session::new();
                Ok([0; 3]).into()
            }
            1 => session.request(self.number(0), self.number(1)),
            2 => session.release(self.name(0)),
            3 => session.flags(self.name(0), &self.rest[8..]),
            4 => session.position(self.name(0), self.number(2), self.number(3)),
            5 => session.authority(self.name(0), self.number(2)),
            6 => session.danger(self.name(0), self.number(2)),
            7 => session.sos(self.name(0), self.name(2), self.number(4)),
            8 => session.clear(self.name(0), self.number(2)),
            9 => session.back(self.number(0)),
            10 => session.end(self.name(0)),
            13 => self.turns(session),
            kind => panic!("no call has kind {kind}"),
        }
    }

    /// Request and release, as often as the call says; the last request's answer.
    fn turns(&self, session: &mut Session) -> Answer {
        let loco = self.number(0);
        let turn = |_| {
            let granted = session.request(loco, self.number(1));
            session.release(Pair { loco, ticket: granted.numbers[0] });
            granted
        };
        (0..self.number(2)).map(turn).last().expect("one turn at least")
    }

    fn line(&self, session: &mut Session) -> String {
        match self.kind {
            11 => format!("11 {} {}", self.number(0), shown(session.train(self.number(0)))),
            12 => {
                let slots: String = (0..=45).map(|slot| if session.taken(slot) { 'x' } else { '.' }).collect();
                format!("12 {} {} {slots}", session.counter(), session.entries_kept())
            }
            kind => {
                let Answer { answer, numbers: [a, b, c] } = self.answer(session);
                format!("{kind} {answer} {a} {b} {c}")
            }
        }
    }
}

fn or_dash(number: Option<u32>) -> String {
    number.map_or("-".into(), |number| number.to_string())
}

fn shown_order(order: &Option<Order>) -> String {
    let limit = |limit: Option<u32>| limit.map_or("bare".into(), |metres| metres.to_string());
    order.map_or("- -".into(), |order| format!("{} {}", order.other, limit(order.limit)))
}

/// A row without a train is all zeros and dashes.
fn shown(train: Option<Train>) -> String {
    let Some(t) = train else {
        return format!("0 0 0 0 0 0{}", " -".repeat(12));
    };
    let head = format!("{} {} {} {} {} {}", t.loco, t.ticket, t.start, t.slots, t.mode, t.left);
    let (front, rear) = (t.position.map(|p| p.front), t.position.map(|p| p.rear));
    let track = [front, rear, t.authority, t.danger].map(or_dash).join(" ");
    let orders: Vec<_> = t.orders.iter().map(shown_order).collect();
    format!("{head} {track} {}", orders.join(" "))
}

fn main() -> io::Result<()> {
    let mut bytes = Vec::new();
    io::stdin().read_to_end(&mut bytes)?;
    let mut rest = &bytes[..];
    let mut session = Session::new();
    let mut output = io::stdout().lock();
    while !rest.is_empty() {
        let (call, next) = Call::first(rest);
        writeln!(output, "{}", call.line(&mut session))?;
        rest = next;
    }
    Ok(())
}
