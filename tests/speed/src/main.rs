//! Times the archive's functions beside the independent model's, and those of gates beside a tuned peer's.
//!
//!     bench_speed compare                   the peer with the model on random input: stops where they differ
//!     bench_speed table RECORDING [COUNTS]  every case: nanoseconds of both, and the ratio; COUNTS is a file of instruction counts,
//!                                           with a line `CASE OURS MODEL [PEER]` for each case
//!     bench_speed peer [COUNTS]             the cases that have a peer, in the same way
//!     bench_speed programs OURS MODEL RECORDING  both programs on a recording: the listings are compared, and the time is that of
//!                                           a whole run, for each record
//!     bench_speed cases                     a line for each case: its number (0 ..) and its sides
//!     bench_speed only CASE SIDE ROUNDS     nothing but rounds of one case with one side (ours, model, peer)
//!     bench_speed before CASE SIDE ROUNDS   nothing but what comes before each of those rounds

mod archive;
mod cases;
mod comparison;
mod peer;
mod recordings;

use cases::{Case, Rounds};
use std::fs::File;
use std::process::Command;
use std::time::Instant;

const SAMPLES: usize = 101;
/// How often a whole recording is played.
const PLAYS: usize = 5;
/// A sample takes about this long: short enough that few are interrupted, and the median is of none of these.
const SAMPLE_NANOSECONDS: f64 = 300_000.0;

/// Nanoseconds of a round, from a start that has just been taken.
fn since(start: Instant, rounds: u32) -> f64 {
    start.elapsed().as_nanos() as f64 / f64::from(rounds)
}

fn median(mut samples: Vec<f64>) -> f64 {
    samples.sort_by(f64::total_cmp);
    samples[samples.len() / 2]
}

/// What it takes to look at the clock.
fn clock_nanoseconds() -> f64 {
    median((0..SAMPLES).map(|_| since(Instant::now(), 1)).collect())
}

/// Rounds that need nothing before them are timed as one; any other by itself.
fn nanoseconds(timed: &mut Rounds, rounds: u32) -> f64 {
    let Some(before) = &mut timed.before else {
        let start = Instant::now();
        (0..rounds).for_each(|_| (timed.round)());
        return since(start, rounds);
    };
    let clock = clock_nanoseconds();
    let mut alone = || {
        before();
        let start = Instant::now();
        (timed.round)();
        since(start, 1) - clock
    };
    (0..rounds).map(|_| alone()).sum::<f64>() / f64::from(rounds)
}

/// The median of the samples of both sides, which are taken in turn.
fn medians(mut sides: [Rounds; 2]) -> [f64; 2] {
    let mut samples = [Vec::new(), Vec::new()];
    let rounds = sides.each_mut().map(|timed| (SAMPLE_NANOSECONDS / nanoseconds(timed, 50)).clamp(10.0, 1e4) as u32);
    for _ in 0..SAMPLES {
        for (side, timed) in sides.iter_mut().enumerate() {
            // A round that needs much before it is not repeated as often.
            let rounds = if timed.before.is_some() { 10 } else { rounds[side] };
            samples[side].push(nanoseconds(timed, rounds));
        }
    }
    samples.map(median)
}

/// The processor's time that this program has taken, in nanoseconds: what takes long enough to be interrupted is timed by it.
fn spent() -> f64 {
    let text = std::fs::read_to_string("/proc/self/schedstat").expect("Linux tells a program's time");
    text.split(' ').next().and_then(|word| word.parse().ok()).expect("a number")
}

/// The processor's time that the programs have taken that this one has run, in nanoseconds: it is told in hundredths of a second.
fn spent_by_others() -> f64 {
    let text = std::fs::read_to_string("/proc/self/stat").expect("Linux tells a program's time");
    let (_, fields) = text.rsplit_once(") ").expect("the name stands in brackets");
    let fields: Vec<f64> = fields.split(' ').skip(13).take(2).map(|word| word.parse().expect("a number")).collect();
    (fields[0] + fields[1]) * 10_000_000.0
}

/// The median of some whole plays of a recording, in nanoseconds for each record.
fn played(recording: &[u8]) -> (u32, [f64; 2]) {
    let mut samples = [Vec::new(), Vec::new()];
    let whole = recordings::model(recording);
    for _ in 0..PLAYS {
        for (side, play) in [recordings::ours, recordings::model].iter().enumerate() {
            let start = spent();
            assert_eq!(play(recording), whole);
            samples[side].push((spent() - start) / f64::from(whole.records));
        }
    }
    (whole.records, samples.map(median))
}

/// The listing that a program writes of a recording, and the time of the whole run.
fn listing(program: &str, recording: &str) -> (Vec<u8>, f64) {
    let recording = File::open(recording).expect("the recording");
    let start = spent_by_others();
    let output = Command::new(program).stdin(recording).output().expect("a program that runs");
    assert!(output.status.success(), "{program} fails");
    (output.stdout, spent_by_others() - start)
}

fn programs(ours: &str, model: &str, recording: &str) {
    let mut samples = [Vec::new(), Vec::new()];
    let whole = listing(model, recording).0;
    // The listing has a line at either end besides.
    let records = whole.iter().filter(|&&byte| byte == b'\n').count() - 2;
    for _ in 0..PLAYS {
        for (side, program) in [ours, model].into_iter().enumerate() {
            let (listed, time) = listing(program, recording);
            assert!(listed == whole, "the listings differ");
            samples[side].push(time / records as f64);
        }
    }
    print_row("the same by the program, with its listing", samples.map(median), None);
}

/// The instruction counts of a file: for each case those of its sides, after the number of the case.
struct Counts(Option<Vec<Vec<f64>>>);

/// Where the counts of a side stand in a line.
const OURS: usize = 1;
const MODEL: usize = 2;
const PEER: usize = 3;

impl Counts {
    fn from(path: &str) -> Counts {
        let text = std::fs::read_to_string(path).expect("the file of counts");
        let line = |line: &str| line.split(' ').map(|word| word.parse().expect("a number")).collect();
        Counts(Some(text.lines().map(line).collect()))
    }

    /// Ours and another's.
    fn pair(&self, case: usize, other: usize) -> Option<[f64; 2]> {
        self.0.as_ref().map(|lines| [lines[case][OURS], lines[case][other]])
    }
}

fn print_heading(other: &str) {
    println!("| Call | ours, ns | {other}, ns | ratio | ours, instructions | {other}, instructions | ratio |");
    println!("|---|---:|---:|---:|---:|---:|---:|");
}

fn print_row(name: &str, time: [f64; 2], count: Option<[f64; 2]>) {
    let cells = |[ours, other]: [f64; 2]| format!("{ours:.0} | {other:.0} | {:.1}", ours / other);
    println!("| {name} | {} | {} |", cells(time), count.map_or("- | - | -".into(), cells));
}

fn table(recording: &str, counts: &Counts) {
    let recording = std::fs::read(recording).expect("the recording");
    print_heading("model");
    for (at, case) in cases::all().iter().enumerate() {
        print_row(&case.name, medians([case.ours(), case.model()]), counts.pair(at, MODEL));
    }
    let (records, time) = played(&recording);
    print_row(&format!("a record of a recording of {records}"), time, None);
}

fn peer_table(counts: &Counts) {
    print_heading("peer");
    for (at, case) in cases::all().iter().enumerate() {
        if let Some(peer) = case.peer() {
            print_row(&case.name, medians([case.ours(), peer]), counts.pair(at, PEER));
        }
    }
}

fn print_cases() {
    for (at, case) in cases::all().iter().enumerate() {
        println!("{at} ours model{}", if case.peer().is_some() { " peer" } else { "" });
    }
}

fn rounds_of(case: &Case, side: &str) -> Rounds {
    match side {
        "ours" => case.ours(),
        "model" => case.model(),
        _ => case.peer().expect("a case that has a peer"),
    }
}

/// Rounds of one case, or only what comes before each.
fn only(at: usize, side: &str, before: bool, rounds: u32) {
    let mut timed = rounds_of(&cases::all()[at], side);
    for _ in 0..rounds {
        if let Some(first) = &mut timed.before {
            first();
        }
        if !before {
            (timed.round)();
        }
    }
}

fn main() {
    let words: Vec<String> = std::env::args().skip(1).collect();
    let words: Vec<&str> = words.iter().map(String::as_str).collect();
    match words[..] {
        ["compare"] => comparison::peer_with_model(),
        ["table", recording] => table(recording, &Counts(None)),
        ["table", recording, path] => table(recording, &Counts::from(path)),
        ["peer"] => peer_table(&Counts(None)),
        ["peer", path] => peer_table(&Counts::from(path)),
        ["programs", ours, model, recording] => programs(ours, model, recording),
        ["cases"] => print_cases(),
        [what @ ("only" | "before"), at, side, rounds] => {
            only(at.parse().expect("a case"), side, what == "before", rounds.parse().expect("rounds"))
        }
        _ => eprintln!(
            "usage: bench_speed compare | table RECORDING [COUNTS] | peer [COUNTS] | programs OURS MODEL RECORDING | cases | only CASE SIDE ROUNDS | before CASE SIDE ROUNDS"
        ),
    }
}
