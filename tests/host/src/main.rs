//! Drives the bench's archive with a series of mode steps, then with random and hostile calls, and compares every answer with the
//! independent model:
//!
//!     bench_host SEED COUNT CALLER [ARGUMENTS]
//!
//! The same seed gives the same calls. Or does so with mode traces: a series, a long one, and so many random ones with one change each,
//! all of them as a whole and entry by entry:
//!
//!     bench_host --traces SEED COUNT CALLER [ARGUMENTS]
//!
//! Or makes the calls that a file holds, and prints a line for each, to be compared:
//!
//!     bench_host --cases FILE CALLER [ARGUMENTS]
//!
//! CALLER makes the calls (caller.c, built with the archive).

mod calls;
mod cases;
mod expected;
mod gates;
mod mode_steps;
mod moves;
mod packets;
mod random;
mod records;
mod traces;
mod turnouts;
mod wire;

use bench_model::header::defined;
use bench_model::modes::FLAGS;
use bench_model::old_gates;
use bench_model::packets::{self as model_gates, COUNT, LENGTH};
use bench_model::recording::LONGEST;
use bench_model::session::{ROWS, SLOTS};
use bench_model::traces as model_traces;
use bench_model::turnouts as model_turnouts;
use calls::Calls;
use cases::Case;
use expected::Expected;
use gates::{DISTANCE, JUDGED, OLD_DISTANCE};
use mode_steps::Steps;
use random::Random;
use std::collections::{BTreeMap, BTreeSet};
use std::io::{BufReader, Read, Write};
use std::iter::from_fn;
use std::process::{ChildStdin, ChildStdout, Command, ExitCode, Stdio};
use std::sync::mpsc::{sync_channel, Receiver, SyncSender};
use traces::Verdicts;
use wire::{Call, Kind, Reply, REPLY_BYTES};

const BATCH: usize = 1_000;
/// Of how many questions one is watched.
const WATCHED: usize = 10;

type Batch = Vec<(Call, Expected)>;

/// Every answer number that a call can give. A run of a million calls or more must have seen each, must have called each function and must
/// have met each place that a refused read of gates, one of turnouts, and a refused move of gates either way can tell, and each number of
/// gates or turnouts that they can accept. Both engines must have shown the same, and each what `Steps::missing` looks for. Each verdict must
/// have been given of a trace and of an entry.
const ANSWERS: [u32; 23] = [0, 1, 2, 3, 4, 5, 6, 10, 11, 12, 13, 14, 15, 16, 17, 18, 19, 20, 21, 22, 23, 24, 34];

/// The numbers that the header defines besides the session's size are the model's, or those by which packets are damaged.
const _: () = assert!(
    defined("#define KB_ROWS ") == ROWS as u32
        && defined("#define KB_SLOTS ") == SLOTS
        && defined("#define KB_FLAGS ") == FLAGS as u32
        && defined("#define KB_GATE_SIZE ") == model_gates::GATE_BYTES as u32
        && defined("#define KB_MOST_GATES ") == gates::MOST_GATES
        && defined("#define KB_PACKET_SIZE ") == gates::PACKET as u32
        && defined("#define KB_OLD_MOST_GATES ") == gates::OLD_MOST_GATES
        && defined("#define KB_OLD_PACKET_SIZE ") == gates::OLD_PACKET as u32
        && defined("#define KB_TURNOUT_SIZE ") == model_turnouts::TURNOUT_BYTES as u32
        && defined("#define KB_MOST_TURNOUTS ") == model_turnouts::MOST_TURNOUTS as u32
        && defined("#define KB_TURNOUT_PACKET_SIZE ") == turnouts::PACKET as u32
        && defined("#define KB_LONGEST_RECORD ") == LONGEST as u32
        && defined("#define KB_TRACE_ENTRY_SIZE ") == model_traces::ENTRY as u32
        && defined("    KB_RIGHT = ") == model_traces::RIGHT
        && defined("    KB_MODE_BEFORE = ") == model_traces::MODE_BEFORE
        && defined("    KB_MODE_AFTER = ") == model_traces::MODE_AFTER
        && defined("#define KB_LENGTH_AT ") == LENGTH as u32
        && defined("#define KB_COUNT_AT ") == COUNT as u32
        && defined("#define KB_FIRST_GATE_AT ") == model_gates::HEADER_BITS as u32
        && defined("#define KB_GATE_BITS ") == model_gates::GATE_BITS as u32
        && defined("#define KB_NUMBER_AT ") == (DISTANCE + JUDGED[0].0) as u32
        && defined("#define KB_SUFFIX_AT ") == (DISTANCE + JUDGED[1].0) as u32
        && defined("#define KB_CLASS_AT ") == (DISTANCE + JUDGED[2].0) as u32
        && defined("#define KB_WHISTLING_TYPE_AT ") == (DISTANCE + JUDGED[3].0) as u32
        && defined("#define KB_OLD_GATE_BITS ") == old_gates::GATE_BITS as u32
        && defined("#define KB_OLD_NUMBER_AT ") == (OLD_DISTANCE + JUDGED[0].0) as u32
        && defined("#define KB_OLD_SUFFIX_AT ") == (OLD_DISTANCE + JUDGED[1].0) as u32
        && defined("#define KB_OLD_CLASS_AT ") == (OLD_DISTANCE + JUDGED[2].0) as u32
        && defined("#define KB_OLD_WHISTLING_TYPE_AT ") == (OLD_DISTANCE + JUDGED[3].0) as u32
        && defined("#define KB_FIRST_TURNOUT_AT ") == model_turnouts::HEADER_BITS as u32
        && defined("#define KB_SPEED_BITS ") == model_turnouts::SPEED_BITS as u32
        && defined("#define KB_TURNOUT_BITS ") == model_turnouts::TURNOUT_BITS as u32
        && defined("#define KB_LAST_RESTRICTED ") == *model_turnouts::RESTRICTED.end()
        && defined("#define KB_UNRESTRICTED ") == model_turnouts::UNRESTRICTED
);

/// At least so many random calls.
fn random_calls(seed: u64, count: u64) -> impl Iterator<Item = Batch> {
    let mut calls = Calls::new(seed, count);
    let mut made = 0;
    from_fn(move || {
        if made >= count {
            return None;
        }
        let mut batch = Batch::new();
        while batch.len() < BATCH {
            batch.extend(calls.next());
        }
        made += batch.iter().filter(|(call, _)| call.kind.is_call()).count() as u64;
        Some(batch)
    })
}

/// These calls, which need no session. All batches but the last are whole, since the caller hands its replies on only where they are many.
fn without_session(calls: impl Iterator<Item = Call>) -> impl Iterator<Item = Batch> {
    let mut calls = calls.map(|call| {
        let expected = expected::without_session(&call);
        (call, expected)
    });
    from_fn(move || Some(calls.by_ref().take(BATCH).collect()).filter(|batch: &Batch| !batch.is_empty()))
}

/// Makes the calls and sends them, each batch first to whoever compares.
fn send(batches: impl Iterator<Item = Batch>, mut caller: ChildStdin, compared: SyncSender<Batch>) {
    for batch in batches {
        let mut bytes = Vec::new();
        for (n, (call, expected)) in batch.iter().enumerate() {
            call.put(expected.watches(call, n % WATCHED == 0), &mut bytes);
        }
        // Where the caller has stopped, or a difference was found, there is nothing more to do.
        if compared.send(batch).is_err() || caller.write_all(&bytes).is_err() {
            return;
        }
    }
}

/// What the reads of one kind have shown. A move of gates reads them, too.
#[derive(Default)]
struct Reads {
    calls: u64,
    /// Those of sub-packets that were sound and then changed.
    damaged: u64,
    /// Those that were refused with a place that is not 0.
    placed: u64,
    /// The answers, each with its place.
    places: BTreeSet<(u32, u32)>,
    /// The numbers of gates or turnouts of those that were accepted.
    counts: BTreeSet<u32>,
}

impl Reads {
    fn note(&mut self, call: &Call, reply: &Reply) {
        let [answer, place, count, ..] = reply.words;
        self.calls += 1;
        self.damaged += u64::from(call.damaged);
        self.placed += u64::from(place != 0);
        self.places.insert((answer, place));
        if answer == 0 {
            self.counts.insert(count);
        }
    }

    /// The first of these places, or of the numbers up to `most`, that was not met.
    fn missing(&self, what: &str, places: Vec<(u32, u32)>, most: u32) -> Option<String> {
        let place = places.into_iter().find(|place| !self.places.contains(place));
        let place = place.map(|(answer, bit)| format!("no {what} was answered {answer} with place {bit}"));
        let count = (0..=most).find(|count| !self.counts.contains(count));
        place.or(count.map(|count| format!("no {what} was accepted of a sub-packet that has {count}")))
    }
}

/// How often each answer was given, which functions were called, and what else a run is to show.
#[derive(Default)]
struct Seen {
    calls: u64,
    kinds: BTreeSet<u32>,
    foreign: u64,
    /// Frame ages of a station whose number is the lower one.
    over_midnight: u64,
    gates: Reads,
    turnouts: Reads,
    forward: Reads,
    back: Reads,
    steps: Steps,
    plain_steps: Steps,
    traces: Verdicts,
    entries: Verdicts,
    /// Framings that were refused with a place that is not 0.
    placed_frames: u64,
    answers: BTreeMap<u32, u64>,
}

impl Seen {
    /// What a long run must have met, and did not.
    fn missing(&self) -> Option<String> {
        let answer = ANSWERS.iter().find(|&answer| !self.answers.contains_key(answer));
        let kind = (0..=Kind::LongestRecord as u32).find(|kind| !self.kinds.contains(kind));
        let answer = answer.map(|answer| format!("no call was answered {answer}"));
        let kind = kind.map(|kind| format!("no call was of kind {kind} (wire.rs names the kinds)"));
        let gates = self.gates.missing("read of gates", model_gates::places(), gates::MOST_GATES);
        let forward = self.forward.missing("move of gates forward", old_gates::forward_places(), gates::MOST_GATES);
        let back = self.back.missing("move of gates back", old_gates::back_places(), gates::MOST_GATES);
        let most_turnouts = model_turnouts::MOST_TURNOUTS as u32;
        let turnouts = self.turnouts.missing("read of turnouts", model_turnouts::places(), most_turnouts);
        let frame = (self.placed_frames == 0).then(|| "no framing was refused with a place that is not 0".into());
        let steps = self.engines().into_iter().find_map(|(engine, steps)| steps.missing(engine));
        let other =
            (self.steps != self.plain_steps).then(|| "the steps by the two engines have not shown the same".into());
        let traces = self.missing_verdict();
        answer.or(kind).or(gates).or(forward).or(back).or(turnouts).or(frame).or(steps).or(other).or(traces)
    }

    /// A verdict that was not given of a trace, or of an entry.
    fn missing_verdict(&self) -> Option<String> {
        self.traces.missing("trace").or(self.entries.missing("entry"))
    }

    /// What the steps by each engine have shown.
    fn engines(&self) -> [(&str, &Steps); 2] {
        [("the engine in use", &self.steps), ("the plain engine", &self.plain_steps)]
    }

    fn note(&mut self, call: &Call, expected: &Expected, reply: &Reply) {
        match expected {
            Expected::Nothing => return,
            Expected::Foreign => self.foreign += 1,
            Expected::Known { .. } if call.kind.is_number() => {}
            Expected::Known { .. } => *self.answers.entry(reply.words[0]).or_default() += 1,
        }
        self.calls += 1;
        self.kinds.insert(call.kind as u32);
        self.note_special(call, reply);
    }

    /// What the report counts besides the answers.
    fn note_special(&mut self, call: &Call, reply: &Reply) {
        let [answer, place, ..] = reply.words;
        match call.kind {
            Kind::FrameAge => self.over_midnight += u64::from(call.n[0] < call.n[1] && answer == 0),
            Kind::Frame => self.placed_frames += u64::from(place != 0),
            Kind::ReadGates => self.gates.note(call, reply),
            Kind::GatesForward => self.forward.note(call, reply),
            Kind::GatesBack => self.back.note(call, reply),
            Kind::ReadTurnouts => self.turnouts.note(call, reply),
            Kind::NextMode => self.steps.note(call, reply),
            Kind::NextModePlain => self.plain_steps.note(call, reply),
            Kind::CheckTrace => self.traces.note(call, reply),
            Kind::CheckTraceEntry => self.entries.note(call, reply),
            _ => {}
        }
    }
}

/// A call in words, which are cut where they are very many.
fn shown(call: &Call) -> String {
    let mut words = format!("{call:?}");
    words.truncate(100_000);
    words
}

/// The next reply, of a call by its number in the run.
fn reply_to(call: &Call, number: u64, caller: &mut impl Read) -> Result<Reply, String> {
    let mut head = [0; REPLY_BYTES];
    let mut output = vec![0; call.room as usize];
    let read = caller.read_exact(&mut head).and_then(|()| caller.read_exact(&mut output));
    // Answers that the caller had not yet handed on are lost with it.
    read.map_err(|error| format!("no answer from call {number} on ({error}): {}", shown(call)))?;
    Ok(Reply::of(&head, output))
}

/// What a reply is held to, or what is wrong with it.
fn judge(call: &Call, number: u64, expected: &Expected, reply: &Reply) -> Result<(), String> {
    match expected.fault(call, reply) {
        Some(fault) => Err(format!("call {number}: {}\nanswers {reply:?}\n{fault}", shown(call))),
        None => Ok(()),
    }
}

/// Compares the replies, or says what is wrong.
fn compare(mut caller: impl Read, batches: Receiver<Batch>) -> Result<Seen, String> {
    let mut seen = Seen::default();
    for (call, expected) in batches.into_iter().flatten() {
        let number = seen.calls + 1;
        let reply = reply_to(&call, number, &mut caller)?;
        judge(&call, number, &expected, &reply)?;
        seen.note(&call, &expected, &reply);
    }
    Ok(seen)
}

/// The line of each case. What a case must answer is said by whoever compares the lines; here a refusal and a question are held to change nothing.
fn lines(mut caller: impl Read, cases: &[Case]) -> Result<Vec<String>, String> {
    reply_to(&cases::foreign(), 0, &mut caller)?;
    let mut lines = Vec::new();
    for case in cases {
        let number = lines.len() as u64 + 1;
        let mut replies = Vec::new();
        for call in &case.calls {
            let reply = reply_to(call, number, &mut caller)?;
            judge(call, number, &Expected::Foreign, &reply)?;
            replies.push(reply);
        }
        lines.push(case.line(&replies));
    }
    Ok(lines)
}

/// Starts the caller, with one thread that sends it calls while this one reads its replies.
fn drive<T>(
    command: &[String],
    sending: impl FnOnce(ChildStdin) + Send + 'static,
    reading: impl FnOnce(BufReader<ChildStdout>) -> Result<T, String>,
) -> Result<T, String> {
    let mut caller = Command::new(&command[0])
        .args(&command[1..])
        .stdin(Stdio::piped())
        .stdout(Stdio::piped())
        .spawn()
        .map_err(|error| format!("{}: {error}", command[0]))?;
    let (to_caller, from_caller) = (caller.stdin.take().expect("a pipe"), caller.stdout.take().expect("a pipe"));
    let sender = std::thread::spawn(move || sending(to_caller));
    let read = reading(BufReader::with_capacity(1 << 16, from_caller));
    if read.is_err() {
        let _ = caller.kill();
    }
    let status = caller.wait().map_err(|error| error.to_string())?;
    let _ = sender.join();
    let read = read.map_err(|fault| format!("{fault} (the caller ended with {status})"))?;
    if status.success() {
        Ok(read)
    } else {
        Err(format!("the caller ended with {status}"))
    }
}

fn run(batches: impl Iterator<Item = Batch> + Send + 'static, command: &[String]) -> Result<Seen, String> {
    let (sender, receiver) = sync_channel(16);
    let sending = move |caller| send(batches, caller, sender);
    drive(command, sending, |caller| compare(caller, receiver))
}

/// Makes the calls of a file's cases, each watched, and prints their lines.
fn run_cases(file: &str, command: &[String]) -> Result<(), String> {
    let cases = Case::all(&std::fs::read(file).map_err(|error| format!("{file}: {error}"))?);
    let mut bytes = Vec::new();
    cases::foreign().put(false, &mut bytes);
    cases.iter().flat_map(|case| &case.calls).for_each(|call| call.put(true, &mut bytes));
    // Where the caller has stopped, whoever reads its replies says so.
    let sending = move |mut caller: ChildStdin| drop(caller.write_all(&bytes));
    let lines = drive(command, sending, |caller| lines(caller, &cases))?;
    lines.iter().for_each(|line| println!("{line}"));
    Ok(())
}

fn run_random(seed: u64, count: u64, command: &[String]) -> Result<(), String> {
    let seen = run(random_calls(seed, count), command)?;
    if count >= 1_000_000 {
        seen.missing().map_or(Ok(()), Err)?;
    }
    let listed: Vec<String> = seen.answers.iter().map(|(answer, times)| format!("{answer}: {times}")).collect();
    println!("host: answers {}", listed.join(", "));
    println!("host: {} of the frame ages over midnight", seen.over_midnight);
    println!(
        "host: {} gate reads, {} turnout reads and {} framings refused with a place that is not 0",
        seen.gates.placed, seen.turnouts.placed, seen.placed_frames
    );
    println!("host: {} gate reads and {} turnout reads of damaged packets", seen.gates.damaged, seen.turnouts.damaged);
    print_moves(&seen.forward, &seen.back);
    seen.engines().into_iter().for_each(|(engine, steps)| print_steps(engine, steps));
    print_verdicts(&seen.traces, &seen.entries);
    println!(
        "host: {} calls tried with seed {seed}, {} of them on foreign sessions: no difference",
        seen.calls, seen.foreign
    );
    Ok(())
}

fn print_moves(forward: &Reads, back: &Reads) {
    let (placed, damaged) = (forward.placed + back.placed, forward.damaged + back.damaged);
    println!("host: {} moves of gates, {} forward and {} back", forward.calls + back.calls, forward.calls, back.calls);
    println!("host: {placed} of the moves refused with a place that is not 0, {damaged} of damaged packets");
}

fn print_steps(engine: &str, steps: &Steps) {
    let Steps { calls, ties, singles, pairs, larger, .. } = steps;
    println!(
        "host: {calls} mode steps by {engine}, {ties} of them ties; {} different ones with a single flag, {} with two flags that \
         open two transitions, and {larger} steps with more flags",
        singles.len(),
        pairs.len()
    );
}

fn print_verdicts(traces: &Verdicts, entries: &Verdicts) {
    println!("host: {} mode traces: {}", traces.count(), traces.listed());
    println!("host: {} entries of mode traces: {}", entries.count(), entries.listed());
}

/// A run of a thousand random traces or more must have given each verdict of a trace and of an entry.
fn run_traces(seed: u64, count: u64, command: &[String]) -> Result<(), String> {
    let mut random = Random::new(seed);
    let series = run(without_session(traces::series().chain(traces::long(&mut random))), command)?;
    println!(
        "host: a series of {} mode traces, the last of {} entries, as a whole and entry by entry: no difference",
        series.traces.count(),
        traces::LONG
    );
    let changed = (0..count).flat_map(move |_| traces::one_change(&mut random));
    let seen = run(without_session(changed), command)?;
    if count >= 1_000 {
        seen.missing_verdict().map_or(Ok(()), Err)?;
    }
    print_verdicts(&seen.traces, &seen.entries);
    println!("host: {count} random mode traces with one change each tried with seed {seed}: no difference");
    Ok(())
}

/// Runs with the seed and the count that the words begin with and the command behind them, where they are that.
fn seeded(words: &[String], run: fn(u64, u64, &[String]) -> Result<(), String>) -> Option<Result<(), String>> {
    let [seed, count, command @ ..] = words else {
        return None;
    };
    let (seed, count) = (seed.parse().ok()?, count.parse().ok()?);
    (!command.is_empty()).then(|| run(seed, count, command).map_err(|fault| format!("seed {seed}, {fault}")))
}

/// Runs what the words ask for, where they ask for something.
fn asked(words: &[String]) -> Option<Result<(), String>> {
    match words {
        [word, file, command @ ..] if word == "--cases" && !command.is_empty() => Some(run_cases(file, command)),
        [word, words @ ..] if word == "--traces" => seeded(words, run_traces),
        words => seeded(words, run_random),
    }
}

fn main() -> ExitCode {
    let words: Vec<String> = std::env::args().skip(1).collect();
    match asked(&words) {
        Some(Ok(())) => ExitCode::SUCCESS,
        Some(Err(fault)) => {
            println!("host: A DIFFERENCE: {fault}");
            ExitCode::FAILURE
        }
        None => {
            eprintln!("usage: bench_host [--traces] SEED COUNT CALLER [ARGUMENTS], or --cases FILE CALLER [ARGUMENTS]");
            ExitCode::from(2)
        }
    }
}
