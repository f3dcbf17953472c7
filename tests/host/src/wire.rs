//! A call as it goes to the caller, and the reply as it comes back: words of 32 bits, low byte first, then bytes.
//!
//! A call: kind, bytes of the session that are lent, five numbers, length of what is given, length of the output that is lent, 1 where
//! the session is watched; then what is given. A reply: the mark of changes, 19 words of the answer; then the whole output.

/// The bytes of a session, as the header has them.
pub use bench_model::header::SESSION_SIZE as SESSION;

/// How much longer than a session a lent one may be.
pub const LONGER: u32 = 8_192;
pub const WORDS: usize = 19;
/// What the caller fills an output with before it lends it.
pub const PATTERN: u8 = 0xA5;
pub const REPLY_BYTES: usize = 4 * (1 + WORDS);

#[derive(Clone, Copy, PartialEq, Eq, Debug)]
pub enum Kind {
    Start = 0,
    Request,
    Release,
    Flags,
    Position,
    Authority,
    Danger,
    Sos,
    Clear,
    StepBack,
    Counter,
    Kept,
    IsTaken,
    End,
    Train,
    Frame,
    ReadGates,
    WriteGates,
    GatesForward,
    GatesBack,
    ReadTurnouts,
    WriteTurnouts,
    FrameAge,
    NextMode,
    NextModePlain,
    CheckTrace,
    CheckTraceEntry,
    SessionSize,
    RunRecord,
    LongestRecord,
    /// No call: the session's bytes become those given.
    Fill = 30,
    /// No call: one byte of the session becomes another.
    Poke = 31,
    /// Many calls: a request and the release of what it got, again and again; the answer is the last request's.
    Turns = 32,
}

impl Kind {
    pub fn is_call(self) -> bool {
        !matches!(self, Kind::Fill | Kind::Poke)
    }

    /// A number of the library, told without an answer.
    pub fn is_number(self) -> bool {
        matches!(self, Kind::SessionSize | Kind::LongestRecord)
    }

    pub fn takes_session(self) -> bool {
        (self as u32) <= Kind::Train as u32 || matches!(self, Kind::RunRecord | Kind::Turns)
    }

    pub fn may_change(self) -> bool {
        (self as u32) <= Kind::StepBack as u32 || matches!(self, Kind::RunRecord | Kind::Turns)
    }
}

#[derive(Clone, Debug)]
pub struct Call {
    pub kind: Kind,
    pub lent: u32,
    pub n: [u32; 5],
    pub given: Vec<u8>,
    pub room: u32,
    /// What is given is a sub-packet that was sound and then changed. The caller is not told.
    pub damaged: bool,
}

impl Call {
    pub fn new(kind: Kind, numbers: &[u32]) -> Call {
        let mut n = [0; 5];
        n[..numbers.len()].copy_from_slice(numbers);
        Call { kind, lent: SESSION, n, given: Vec::new(), room: 0, damaged: false }
    }

    pub fn with(mut self, given: Vec<u8>) -> Call {
        self.given = given;
        self
    }

    pub fn into_room(mut self, room: usize) -> Call {
        self.room = room as u32;
        self
    }

    pub fn put(&self, watch: bool, bytes: &mut Vec<u8>) {
        let [a, b, c, d, e] = self.n;
        let (given, watch) = (self.given.len() as u32, u32::from(watch));
        let words = [self.kind as u32, self.lent, a, b, c, d, e, given, self.room, watch];
        words.iter().for_each(|word| bytes.extend(word.to_le_bytes()));
        bytes.extend(&self.given);
    }
}

#[derive(Clone, PartialEq, Eq, Debug)]
pub struct Reply {
    pub changed: u32,
    pub words: [u32; WORDS],
    pub output: Vec<u8>,
}

impl Reply {
    pub fn of(head: &[u8; REPLY_BYTES], output: Vec<u8>) -> Reply {
        let word = |n: usize| u32::from_le_bytes(head[4 * n..4 * n + 4].try_into().expect("four bytes"));
        Reply { changed: word(0), words: std::array::from_fn(|n| word(n + 1)), output }
    }
}
