//! What the model says of each call: the words of the answer, the output afterwards, and whether the session changes.

use crate::wire::{Call, Kind, Reply, PATTERN, SESSION, WORDS};
use bench_model::recording::{self, run_first, Run};
use bench_model::session::{Answer, Pair, Session, NONE};
use bench_model::train::Train;
use bench_model::{clock, modes, old_gates, packets, traces, turnouts};

const WRONG_LENGTH: u32 = 34;
const MOST_RECORDS: u32 = u32::MAX;

#[derive(Clone, Debug)]
pub enum Expected {
    Known {
        words: [u32; WORDS],
        output: Vec<u8>,
    },
    /// The session is not of our own making: the answer is open, and a refusal must change nothing.
    Foreign,
    /// This is no call.
    Nothing,
}

impl Expected {
    fn words(given: &[u32]) -> Expected {
        Expected::told(given, Vec::new())
    }

    fn told(given: &[u32], output: Vec<u8>) -> Expected {
        let mut words = [0; WORDS];
        words[..given.len()].copy_from_slice(given);
        Expected::Known { words, output }
    }

    /// Must the caller compare the session with what it was before? It must for every refusal, and for some of the questions.
    pub fn watches(&self, call: &Call, question: bool) -> bool {
        match self {
            _ if !call.kind.takes_session() => false,
            Expected::Known { words, .. } => words[0] != 0 || (question && !call.kind.may_change()),
            Expected::Foreign => true,
            Expected::Nothing => false,
        }
    }

    /// What is wrong with a reply, if anything.
    pub fn fault(&self, call: &Call, reply: &Reply) -> Option<String> {
        match self {
            Expected::Nothing => None,
            Expected::Foreign => foreign_fault(call, reply),
            Expected::Known { words, output } => {
                if reply.words != *words {
                    return Some(format!("the model answers {words:?}"));
                }
                if reply.changed != 0 {
                    return Some("what was lent is to stay".into());
                }
                (reply.output != *output).then(|| format!("the model leaves the output as {output:?}"))
            }
        }
    }
}

fn foreign_fault(call: &Call, reply: &Reply) -> Option<String> {
    let refused = reply.words[0] != 0;
    // What is told of a record besides its three numbers is told of a refused one, too.
    let zeros = if call.kind == Kind::RunRecord { &reply.words[1..4] } else { &reply.words[1..] };
    if refused && zeros.iter().any(|&word| word != 0) {
        return Some("a refusal gives zeros".into());
    }
    if reply.changed != 0 && (refused || !call.kind.may_change()) {
        return Some("a refusal or a question changes nothing".into());
    }
    (reply.changed > 1).then(|| "what was given stays".into())
}

/// The model beside the caller's session.
pub struct Bench {
    pub session: Session,
    /// The caller's session holds bytes that no call made.
    pub foreign: bool,
}

impl Bench {
    pub fn expect(&mut self, call: &Call) -> Expected {
        match call.kind {
            Kind::Fill | Kind::Poke => {
                self.foreign = true;
                Expected::Nothing
            }
            Kind::SessionSize => Expected::words(&[SESSION]),
            Kind::LongestRecord => Expected::words(&[recording::LONGEST as u32]),
            kind if !kind.takes_session() => without_session(call),
            Kind::RunRecord if !self.foreign || call.lent != SESSION => self.run_record(call),
            _ if call.lent != SESSION => Expected::words(&[WRONG_LENGTH]),
            Kind::Start => {
                self.session = Session::new();
                self.foreign = false;
                Expected::words(&[0])
            }
            _ if self.foreign => Expected::Foreign,
            Kind::Train => Expected::words(&train_words(self.session.train(call.n[0]))),
            _ => self.operate(call),
        }
    }

    fn run_record(&mut self, call: &Call) -> Expected {
        let before = call.n[0];
        let held = if before < MOST_RECORDS { &call.given[..] } else { &[] };
        let run = if call.lent == SESSION {
            run_first(&mut self.session, held)
        } else {
            // The form is judged first; a session of another length is then refused.
            let run = run_first(&mut Session::new(), held);
            let answer = if run.kind == 0 { run.answer } else { Err(WRONG_LENGTH).into() };
            Run { answer, ..run }
        };
        let Answer { answer, numbers: [first, second, third] } = run.answer;
        let number = u64::from(before) + 1;
        let told = [run.kind, run.used as u32, number as u32, (number >> 32) as u32];
        Expected::words(&[answer, first, second, third, told[0], told[1], told[2], told[3]])
    }

    fn operate(&mut self, call: &Call) -> Expected {
        let [a, b, c, d, e] = call.n;
        let name = Pair { loco: a, ticket: b };
        let session = &mut self.session;
        let number = |first| Answer { answer: 0, numbers: [first, 0, 0] };
        let Answer { answer, numbers: [first, second, third] } = match call.kind {
            Kind::Request => session.request(a, b),
            Kind::Release => session.release(name),
            Kind::Flags => session.flags(name, &call.given),
            Kind::Position => session.position(name, c, d),
            Kind::Authority => session.authority(name, c),
            Kind::Danger => session.danger(name, c),
            Kind::Sos => session.sos(name, Pair { loco: c, ticket: d }, e),
            Kind::Clear => session.clear(name, c),
            Kind::StepBack => session.back(a),
            Kind::Counter => number(session.counter()),
            Kind::Kept => number(session.entries_kept()),
            Kind::IsTaken => number(u32::from(session.taken(a))),
            Kind::End => session.end(name),
            other => unreachable!("{other:?} is no call on a session"),
        };
        Expected::words(&[answer, first, second, third])
    }
}

/// The same of a call that needs no session.
pub fn without_session(call: &Call) -> Expected {
    let [a, b, ..] = call.n;
    match call.kind {
        Kind::FrameAge => {
            let age = clock::frame_age(a, b);
            let conditions = [age.fresh, age.stale, age.recent].map(u32::from);
            Expected::words(&[age.answer, age.age, conditions[0], conditions[1], conditions[2]])
        }
        Kind::NextMode | Kind::NextModePlain => match modes::step(a, &call.given) {
            Ok(step) => Expected::words(&[0, step.mode, step.priority, step.tie]),
            Err(answer) => Expected::words(&[answer]),
        },
        Kind::CheckTrace => {
            let told = traces::check_trace(&call.given);
            Expected::words(&[told.answer, told.entry as u32, told.due])
        }
        Kind::CheckTraceEntry => {
            let told = traces::check_entry(a, &call.given);
            Expected::words(&[told.answer, told.wrong, told.due])
        }
        _ => on_packet(call),
    }
}

fn on_packet(call: &Call) -> Expected {
    let mut output = vec![PATTERN; call.room as usize];
    match call.kind {
        Kind::Frame => {
            let packets::Frame { answer, place, packet } = packets::frame(&call.given);
            Expected::words(&[answer, place, 0, packet.len() as u32])
        }
        Kind::ReadGates => {
            let read = packets::read_gates(&call.given, &mut output);
            Expected::told(&[read.answer, read.place, read.gates as u32, read.bytes as u32], output)
        }
        Kind::WriteGates => {
            let written = packets::write_gates(&call.given, &mut output);
            Expected::told(&[written.answer, written.gates as u32, written.bytes as u32], output)
        }
        Kind::GatesForward => moved(old_gates::forward(&call.given, &mut output), output),
        Kind::GatesBack => moved(old_gates::back(&call.given, &mut output), output),
        Kind::ReadTurnouts => {
            let read = turnouts::read_turnouts(&call.given, &mut output);
            Expected::told(&[read.answer, read.place, read.turnouts as u32, read.bytes as u32], output)
        }
        Kind::WriteTurnouts => {
            let written = turnouts::write_turnouts(&call.given, &mut output);
            Expected::told(&[written.answer, written.turnouts as u32, written.bytes as u32], output)
        }
        other => unreachable!("{other:?} takes a session"),
    }
}

fn moved(told: old_gates::GatesMoved, output: Vec<u8>) -> Expected {
    let old_gates::GatesMoved { answer, place, gates, used, written } = told;
    Expected::told(&[answer, place, gates as u32, used as u32, written as u32], output)
}

/// The row of a train as the header tells it; where there is none, the numbers of an empty row.
fn train_words(train: Option<Train>) -> [u32; WORDS] {
    let mut words = [0; WORDS];
    words[7..].fill(NONE);
    words[11..].iter_mut().step_by(2).for_each(|ticket| *ticket = 0);
    let Some(train) = train else {
        return words;
    };
    words[1..7].copy_from_slice(&[train.loco, train.ticket, train.start, train.slots, train.mode, train.left]);
    if let Some(at) = train.position {
        words[7..9].copy_from_slice(&[at.front, at.rear]);
    }
    words[9] = train.authority.unwrap_or(NONE);
    words[10] = train.danger.unwrap_or(NONE);
    for (place, order) in train.orders.iter().enumerate() {
        if let Some(order) = order {
            words[11 + 2 * place] = order.other;
            words[12 + 2 * place] = order.limit.unwrap_or(NONE);
        }
    }
    words
}
