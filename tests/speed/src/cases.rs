//! What is timed: each case once with the archive and once with the model, and those of gates once with the tuned peer. A case is a
//! round that can be repeated.

use crate::{archive, peer};
use bench_model::session::{Pair, Session};
use bench_model::{clock, modes, old_gates, packets, traces, turnouts};
use std::cell::RefCell;
use std::hint::black_box;
use std::rc::Rc;

pub type Round = Box<dyn FnMut()>;

/// What is timed again and again, and what is done before each time without being timed.
pub struct Rounds {
    pub before: Option<Round>,
    pub round: Round,
}

fn alone(round: impl FnMut() + 'static) -> Rounds {
    Rounds { before: None, round: Box::new(round) }
}

/// Makes rounds, given a number of gates, turnouts or trains.
type Maker = fn(u32) -> Rounds;
/// The same rounds made for the archive and for the model.
type Makers = (Maker, Maker);

pub struct Case {
    pub name: String,
    makers: Makers,
    peer: Option<Maker>,
    size: u32,
}

impl Case {
    fn new(name: impl Into<String>, size: u32, makers: Makers) -> Case {
        Case { name: name.into(), makers, peer: None, size }
    }

    fn with_peer(self, peer: Maker) -> Case {
        Case { peer: Some(peer), ..self }
    }

    pub fn ours(&self) -> Rounds {
        (self.makers.0)(self.size)
    }

    pub fn model(&self) -> Rounds {
        (self.makers.1)(self.size)
    }

    pub fn peer(&self) -> Option<Rounds> {
        self.peer.map(|peer| peer(self.size))
    }
}

/// A round that reads a sub-packet of so many gates or turnouts, or moves one.
macro_rules! reading {
    ($read:path, $packet:path) => {
        |count| {
            let (packet, mut output) = ($packet(count), vec![0; 252]);
            alone(move || assert_eq!($read(black_box(&packet), &mut output).answer, 0))
        }
    };
}

/// A round that writes one.
macro_rules! writing {
    ($write:path, $list:path) => {
        |count| {
            let (list, mut packet) = ($list(count), vec![0; 125]);
            alone(move || assert_eq!($write(black_box(&list), &mut packet).answer, 0))
        }
    };
}

/// A round on a session of so many trains, of which the last is named.
macro_rules! on_session {
    (|$session:ident, $name:ident| $round:expr) => {{
        let makers: Makers = (
            |trains| {
                let (mut $session, $name) = ours_with(trains);
                alone(move || _ = black_box($round))
            },
            |trains| {
                let (mut $session, $name) = model_with(trains);
                alone(move || _ = black_box($round))
            },
        );
        makers
    }};
}

/// A step back of `$k` on a session of so many trains; the entries are made before.
macro_rules! step_back {
    ($k:literal) => {{
        let makers: Makers = (|trains| undone(ours_with(trains), $k), |trains| undone(model_with(trains), $k));
        makers
    }};
}

const GATE: [u8; 9] = [0x02, 0x8A, 0, 12, 0, 1, 2, 1, 0];
/// 30 km/h, at 1,200 m with a release distance of 400.
const TURNOUT: [u8; 5] = [6, 0x04, 0xB0, 0x01, 0x90];
/// Condition 64 leads from SB to OS, which has a row class.
const TO_OS: u32 = 64;
const BYTES: u32 = 54;

fn flags(conditions: &[u32]) -> Vec<u8> {
    (1..=91).map(|n| u8::from(conditions.contains(&n))).collect()
}

fn gate_list(count: u32) -> Vec<u8> {
    GATE.repeat(count as usize)
}

fn gate_packet(count: u32) -> Vec<u8> {
    let mut packet = vec![0; 125];
    let written = packets::write_gates(&gate_list(count), &mut packet);
    packet.truncate(written.bytes);
    packet
}

fn old_gate_packet(count: u32) -> Vec<u8> {
    let mut packet = vec![0; 115];
    let moved = old_gates::back(&gate_packet(count), &mut packet);
    packet.truncate(moved.written);
    packet
}

fn turnout_list(count: u32) -> Vec<u8> {
    TURNOUT.repeat(count as usize)
}

fn turnout_packet(count: u32) -> Vec<u8> {
    let mut packet = vec![0; 14];
    let written = turnouts::write_turnouts(&turnout_list(count), &mut packet);
    packet.truncate(written.bytes);
    packet
}

/// The name of train n in a session of trains 1 to 24, all of which have a position and are in OS.
fn name(n: u32) -> Pair {
    Pair { loco: n, ticket: n }
}

fn ours_with(trains: u32) -> (archive::Session, Pair) {
    let mut session = archive::Session::new();
    for n in 1..=trains {
        assert_eq!(session.request(n, BYTES).first, n);
        assert_eq!(session.position(name(n), 1_000 * n, 1_000 * n - 200).answer, 0);
        assert_eq!(session.flags(name(n), &flags(&[TO_OS])).first, 6);
    }
    (session, name(trains))
}

fn model_with(trains: u32) -> (Session, Pair) {
    let mut session = Session::new();
    for n in 1..=trains {
        assert_eq!(session.request(n, BYTES).numbers[0], n);
        assert_eq!(session.position(name(n), 1_000 * n, 1_000 * n - 200).answer, 0);
        assert_eq!(session.flags(name(n), &flags(&[TO_OS])).numbers[0], 6);
    }
    (session, name(trains))
}

/// A round that frames a sub-packet of so many gates.
fn framing() -> Makers {
    (
        |count| {
            let packet = gate_packet(count);
            alone(move || assert_eq!(archive::frame(black_box(&packet)).length, packet.len()))
        },
        |count| {
            let packet = gate_packet(count);
            alone(move || assert_eq!(packets::frame(black_box(&packet)).packet.len(), packet.len()))
        },
    )
}

fn gate_cases() -> Vec<Case> {
    let read: Makers = (reading!(archive::read_gates, gate_packet), reading!(packets::read_gates, gate_packet));
    let write: Makers = (writing!(archive::write_gates, gate_list), writing!(packets::write_gates, gate_list));
    let counts = [0, 1, 28];
    let case = |what, count, makers| Case::new(format!("gate {what}, gates: {count}"), count, makers);
    let reads = counts.map(|count| case("read", count, read).with_peer(reading!(peer::read_gates, gate_packet)));
    let writes = counts.map(|count| case("write", count, write).with_peer(writing!(peer::write_gates, gate_list)));
    let frames = [0, 28].map(|count| Case::new(format!("framing, gates: {count}"), count, framing()));
    frames.into_iter().chain(reads).chain(writes).collect()
}

fn move_cases() -> Vec<Case> {
    let forward: Makers =
        (reading!(archive::gates_forward, old_gate_packet), reading!(old_gates::forward, old_gate_packet));
    let back: Makers = (reading!(archive::gates_back, gate_packet), reading!(old_gates::back, gate_packet));
    let case = |what, count, makers| Case::new(format!("gates {what}, gates: {count}"), count, makers);
    vec![case("forward", 1, forward), case("forward", 28, forward), case("back", 28, back)]
}

/// All turnouts have their distances.
fn turnout_cases() -> Vec<Case> {
    let read: Makers =
        (reading!(archive::read_turnouts, turnout_packet), reading!(turnouts::read_turnouts, turnout_packet));
    let write: Makers =
        (writing!(archive::write_turnouts, turnout_list), writing!(turnouts::write_turnouts, turnout_list));
    let case = |what, count, makers| Case::new(format!("turnout {what}, turnouts: {count}"), count, makers);
    let counts = [0, 3];
    let reads = counts.map(|count| case("read", count, read));
    reads.into_iter().chain(counts.map(|count| case("write", count, write))).collect()
}

/// A round: a step from the mode under 71 and 76, whose tie mark is 1.
fn stepping(mode: u32, tie: impl Fn(u32, &[u8]) -> u32 + 'static) -> Rounds {
    let flags = flags(&[71, 76]);
    alone(move || assert_eq!(tie(black_box(mode), &flags), 1))
}

fn mode_cases() -> Vec<Case> {
    let in_use: Maker = |mode| stepping(mode, |mode, flags| archive::next_mode(mode, flags).third);
    let plain: Maker = |mode| stepping(mode, |mode, flags| archive::next_mode_plain(mode, flags).third);
    let model: Maker = |mode| stepping(mode, |mode, flags| modes::step(mode, flags).expect("a mode").tie);
    vec![
        Case::new("mode step, FS with 71 and 76", 4, (in_use, model)),
        Case::new("mode step by the plain engine, FS with 71 and 76", 4, (plain, model)),
    ]
}

/// An entry of a mode trace, under one condition.
fn entry(before: u8, condition: u32, after: u8) -> Vec<u8> {
    [&[0x4B, 0x56, before][..], &flags(&[condition]), &[after]].concat()
}

/// A right trace of so many entries, from SB to FS and back again and again.
fn trace(entries: u32) -> Vec<u8> {
    [entry(1, 62, 4), entry(4, 7, 1)].into_iter().cycle().take(entries as usize).flatten().collect()
}

/// A round: a trace checked, whose entries are all right.
fn checking(entries: u32, entry: impl Fn(&[u8]) -> usize + 'static) -> Rounds {
    let trace = trace(entries);
    alone(move || assert_eq!(entry(black_box(&trace)), 0))
}

fn trace_cases() -> [Case; 2] {
    let makers: Makers = (
        |entries| checking(entries, |trace| archive::check_trace(trace).entry),
        |entries| checking(entries, |trace| traces::check_trace(trace).entry),
    );
    [1, 100].map(|entries| Case::new(format!("mode trace, entries: {entries}"), entries, makers))
}

fn age_case() -> Case {
    let age: Makers = (
        |station| alone(move || assert_eq!(archive::frame_age(black_box(station), 11).age, 4)),
        |station| alone(move || assert_eq!(clock::frame_age(black_box(station), 11).age, 4)),
    );
    Case::new("frame age", 20, age)
}

/// A train comes and goes beside so many others. Where the tickets are used up, another session takes over.
fn turn() -> Makers {
    (
        |others| {
            let (mut session, _) = ours_with(others);
            alone(move || {
                let granted = session.request(others + 1, BYTES);
                if granted.answer != 0 {
                    session = ours_with(others).0;
                    return;
                }
                assert_eq!(session.release(Pair { loco: others + 1, ticket: granted.first }).answer, 0);
            })
        },
        |others| {
            let (mut session, _) = model_with(others);
            alone(move || {
                let granted = session.request(others + 1, BYTES);
                if granted.answer != 0 {
                    session = model_with(others).0;
                    return;
                }
                assert_eq!(session.release(Pair { loco: others + 1, ticket: granted.numbers[0] }).answer, 0);
            })
        },
    )
}

fn position(trains: u32) -> Case {
    let makers = on_session!(|session, name| session.position(name, 4_000, 3_800));
    Case::new(format!("position, trains: {trains}"), trains, makers)
}

/// The operations on a register of so many trains; the last one is named.
fn session_cases(trains: u32) -> Vec<Case> {
    let case = |what: &str, makers: Makers| Case::new(format!("{what}, trains: {trains}"), trains, makers);
    let mut cases = vec![
        Case::new(format!("request and release, trains: {trains}"), trains - 1, turn()),
        case("flags, the mode stays", on_session!(|session, name| session.flags(name, &[0; 91]))),
        position(trains),
        case("authority", on_session!(|session, name| session.authority(name, 9_000))),
        case("danger", on_session!(|session, name| session.danger(name, 7_500))),
    ];
    if trains > 1 {
        let sos = on_session!(|session, two| {
            session.sos(two, name(1), 1);
            session.clear(two, 1)
        });
        cases.push(case("SOS (M2) and clear", sos));
    }
    cases.push(case("end asked", on_session!(|session, name| (&mut session).end(name))));
    cases
}

/// What a step back needs of either session.
trait Steps: Clone + 'static {
    fn enter(&mut self, name: Pair);
    fn undo(&mut self, k: u32) -> u32;
}

impl Steps for archive::Session {
    fn enter(&mut self, name: Pair) {
        self.position(name, 4_000, 3_800);
    }

    fn undo(&mut self, k: u32) -> u32 {
        self.back(k).answer
    }
}

impl Steps for Session {
    fn enter(&mut self, name: Pair) {
        self.position(name, 4_000, 3_800);
    }

    fn undo(&mut self, k: u32) -> u32 {
        self.back(k).answer
    }
}

/// Before each round the session is as it was at first, with k entries more.
fn undone((first, name): (impl Steps, Pair), k: u32) -> Rounds {
    let session = Rc::new(RefCell::new(first.clone()));
    let same = Rc::clone(&session);
    let before: Round = Box::new(move || {
        let mut session = session.borrow_mut();
        session.clone_from(&first);
        (0..k).for_each(|_| session.enter(name));
    });
    Rounds { before: Some(before), round: Box::new(move || assert_eq!(same.borrow_mut().undo(k), 0)) }
}

fn back_cases() -> Vec<Case> {
    vec![Case::new("step back of 1", 24, step_back!(1)), Case::new("step back of 128", 24, step_back!(128))]
}

pub fn all() -> Vec<Case> {
    let mut cases = gate_cases();
    cases.extend(move_cases());
    cases.extend(turnout_cases());
    cases.extend(mode_cases());
    cases.extend(trace_cases());
    cases.push(age_case());
    cases.extend(session_cases(1));
    cases.extend(session_cases(24));
    cases.extend(back_cases());
    cases
}
