//! A whole recording, record by record, from memory.

use crate::archive;
use bench_model::recording::run_first;
use bench_model::session::Session;

/// The records of a recording, and how many of them were accepted.
#[derive(Clone, Copy, PartialEq, Eq, Debug)]
pub struct Played {
    pub records: u32,
    pub accepted: u32,
}

pub fn ours(recording: &[u8]) -> Played {
    let mut session = archive::Session::new();
    let (mut at, mut played) = (0, Played { records: 0, accepted: 0 });
    while at < recording.len() {
        let ran = session.run_record(&recording[at..], played.records);
        assert_eq!(ran.number, u64::from(played.records) + 1);
        at += ran.used as usize;
        played = Played { records: played.records + 1, accepted: played.accepted + u32::from(ran.answer == 0) };
    }
    played
}

pub fn model(recording: &[u8]) -> Played {
    let mut session = Session::new();
    let (mut at, mut played) = (0, Played { records: 0, accepted: 0 });
    while at < recording.len() {
        let run = run_first(&mut session, &recording[at..]);
        at += run.used;
        played = Played { records: played.records + 1, accepted: played.accepted + u32::from(run.answer.answer == 0) };
    }
    played
}
