//! The archive's functions, in the header's order. An answer of more than 16 bytes goes through a pointer that the caller passes first:
//! that is what C's convention for x86-64 makes of a struct by value, and what the archive's code does on any processor.

use bench_model::header::SESSION_SIZE;
use bench_model::session::Pair;

const SESSION: usize = SESSION_SIZE as usize;

#[repr(C)]
#[derive(Clone, Copy, Default)]
pub struct FrameAnswer {
    pub answer: u32,
    pub place: usize,
    pub offset: usize,
    pub length: usize,
}

#[repr(C)]
#[derive(Clone, Copy, Default)]
pub struct GatesRead {
    pub answer: u32,
    pub place: usize,
    pub gates: usize,
    pub bytes: usize,
}

#[repr(C)]
#[derive(Clone, Copy, Default)]
pub struct GatesWritten {
    pub answer: u32,
    pub gates: usize,
    pub bytes: usize,
}

#[repr(C)]
#[derive(Clone, Copy, Default)]
pub struct GatesMoved {
    pub answer: u32,
    pub place: usize,
    pub gates: usize,
    pub used: usize,
    pub written: usize,
}

#[repr(C)]
#[derive(Clone, Copy, Default)]
pub struct TurnoutsRead {
    pub answer: u32,
    pub place: usize,
    pub turnouts: usize,
    pub bytes: usize,
}

#[repr(C)]
#[derive(Clone, Copy, Default)]
pub struct TurnoutsWritten {
    pub answer: u32,
    pub turnouts: usize,
    pub bytes: usize,
}

#[repr(C)]
#[derive(Clone, Copy, Default)]
pub struct AgeAnswer {
    pub answer: u32,
    pub age: u32,
    pub conditions: [u32; 3],
}

#[repr(C)]
#[derive(Clone, Copy)]
pub struct Answer {
    pub answer: u32,
    pub first: u32,
    pub second: u32,
    pub third: u32,
}

#[repr(C)]
#[derive(Clone, Copy, Default)]
pub struct TraceAnswer {
    pub answer: u32,
    pub entry: usize,
    pub due: u32,
}

#[repr(C)]
#[derive(Clone, Copy, Default)]
pub struct RecordAnswer {
    pub number: u64,
    pub kind: u32,
    pub answer: u32,
    pub numbers: [u32; 3],
    pub used: u32,
}

extern "C" {
    fn kb_frame(to: *mut FrameAnswer, bytes: *const u8, bytes_len: usize) -> *mut FrameAnswer;
    fn kb_read_gates(
        to: *mut GatesRead,
        bytes: *const u8,
        bytes_len: usize,
        gates: *mut u8,
        gates_len: usize,
    ) -> *mut GatesRead;
    fn kb_write_gates(
        to: *mut GatesWritten,
        gates: *const u8,
        gates_len: usize,
        bytes: *mut u8,
        bytes_len: usize,
    ) -> *mut GatesWritten;
    fn kb_gates_forward(
        to: *mut GatesMoved,
        bytes: *const u8,
        bytes_len: usize,
        moved: *mut u8,
        moved_len: usize,
    ) -> *mut GatesMoved;
    fn kb_gates_back(
        to: *mut GatesMoved,
        bytes: *const u8,
        bytes_len: usize,
        moved: *mut u8,
        moved_len: usize,
    ) -> *mut GatesMoved;
    fn kb_read_turnouts(
        to: *mut TurnoutsRead,
        bytes: *const u8,
        bytes_len: usize,
        turnouts: *mut u8,
        turnouts_len: usize,
    ) -> *mut TurnoutsRead;
    fn kb_write_turnouts(
        to: *mut TurnoutsWritten,
        turnouts: *const u8,
        turnouts_len: usize,
        bytes: *mut u8,
        bytes_len: usize,
    ) -> *mut TurnoutsWritten;
    fn kb_frame_age(to: *mut AgeAnswer, station: u32, onboard: u32) -> *mut AgeAnswer;
    fn kb_next_mode(mode: u32, flags: *const u8, flags_len: usize) -> Answer;
    fn kb_next_mode_plain(mode: u32, flags: *const u8, flags_len: usize) -> Answer;
    fn kb_check_trace(to: *mut TraceAnswer, trace: *const u8, trace_len: usize) -> *mut TraceAnswer;
    fn kb_start(session: *mut u8, len: usize) -> Answer;
    fn kb_request(session: *mut u8, len: usize, loco: u32, bytes: u32) -> Answer;
    fn kb_release(session: *mut u8, len: usize, loco: u32, ticket: u32) -> Answer;
    fn kb_flags(session: *mut u8, len: usize, loco: u32, ticket: u32, flags: *const u8, flags_len: usize) -> Answer;
    fn kb_position(session: *mut u8, len: usize, loco: u32, ticket: u32, front: u32, rear: u32) -> Answer;
    fn kb_authority(session: *mut u8, len: usize, loco: u32, ticket: u32, end: u32) -> Answer;
    fn kb_danger(session: *mut u8, len: usize, loco: u32, ticket: u32, location: u32) -> Answer;
    fn kb_sos(session: *mut u8, len: usize, loco2: u32, ticket2: u32, loco1: u32, ticket1: u32, grid: u32) -> Answer;
    fn kb_clear(session: *mut u8, len: usize, loco: u32, ticket: u32, other: u32) -> Answer;
    fn kb_step_back(session: *mut u8, len: usize, k: u32) -> Answer;
    fn kb_run_record(
        to: *mut RecordAnswer,
        session: *mut u8,
        len: usize,
        held: *const u8,
        held_len: usize,
        before: u32,
    ) -> *mut RecordAnswer;
    fn kb_end(session: *const u8, len: usize, loco: u32, ticket: u32) -> Answer;
}

pub fn frame(bytes: &[u8]) -> FrameAnswer {
    let mut to = FrameAnswer::default();
    unsafe { kb_frame(&mut to, bytes.as_ptr(), bytes.len()) };
    to
}

pub fn read_gates(bytes: &[u8], gates: &mut [u8]) -> GatesRead {
    let mut to = GatesRead::default();
    unsafe { kb_read_gates(&mut to, bytes.as_ptr(), bytes.len(), gates.as_mut_ptr(), gates.len()) };
    to
}

pub fn write_gates(gates: &[u8], bytes: &mut [u8]) -> GatesWritten {
    let mut to = GatesWritten::default();
    unsafe { kb_write_gates(&mut to, gates.as_ptr(), gates.len(), bytes.as_mut_ptr(), bytes.len()) };
    to
}

pub fn gates_forward(bytes: &[u8], moved: &mut [u8]) -> GatesMoved {
    let mut to = GatesMoved::default();
    unsafe { kb_gates_forward(&mut to, bytes.as_ptr(), bytes.len(), moved.as_mut_ptr(), moved.len()) };
    to
}

pub fn gates_back(bytes: &[u8], moved: &mut [u8]) -> GatesMoved {
    let mut to = GatesMoved::default();
    unsafe { kb_gates_back(&mut to, bytes.as_ptr(), bytes.len(), moved.as_mut_ptr(), moved.len()) };
    to
}

pub fn read_turnouts(bytes: &[u8], turnouts: &mut [u8]) -> TurnoutsRead {
    let mut to = TurnoutsRead::default();
    unsafe { kb_read_turnouts(&mut to, bytes.as_ptr(), bytes.len(), turnouts.as_mut_ptr(), turnouts.len()) };
    to
}

pub fn write_turnouts(turnouts: &[u8], bytes: &mut [u8]) -> TurnoutsWritten {
    let mut to = TurnoutsWritten::default();
    unsafe { kb_write_turnouts(&mut to, turnouts.as_ptr(), turnouts.len(), bytes.as_mut_ptr(), bytes.len()) };
    to
}

pub fn frame_age(station: u32, onboard: u32) -> AgeAnswer {
    let mut to = AgeAnswer::default();
    unsafe { kb_frame_age(&mut to, station, onboard) };
    to
}

pub fn next_mode(mode: u32, flags: &[u8]) -> Answer {
    unsafe { kb_next_mode(mode, flags.as_ptr(), flags.len()) }
}

pub fn next_mode_plain(mode: u32, flags: &[u8]) -> Answer {
    unsafe { kb_next_mode_plain(mode, flags.as_ptr(), flags.len()) }
}

pub fn check_trace(trace: &[u8]) -> TraceAnswer {
    let mut to = TraceAnswer::default();
    unsafe { kb_check_trace(&mut to, trace.as_ptr(), trace.len()) };
    to
}

/// A session in bytes of its own.
#[derive(Clone)]
pub struct Session(Box<[u8; SESSION]>);

impl Session {
    pub fn new() -> Session {
        let mut session = Session(Box::new([0xAA; SESSION]));
        unsafe { kb_start(session.0.as_mut_ptr(), SESSION) };
        session
    }

    pub fn request(&mut self, loco: u32, bytes: u32) -> Answer {
        unsafe { kb_request(self.0.as_mut_ptr(), SESSION, loco, bytes) }
    }

    pub fn release(&mut self, name: Pair) -> Answer {
        unsafe { kb_release(self.0.as_mut_ptr(), SESSION, name.loco, name.ticket) }
    }

    pub fn flags(&mut self, name: Pair, flags: &[u8]) -> Answer {
        unsafe { kb_flags(self.0.as_mut_ptr(), SESSION, name.loco, name.ticket, flags.as_ptr(), flags.len()) }
    }

    pub fn position(&mut self, name: Pair, front: u32, rear: u32) -> Answer {
        unsafe { kb_position(self.0.as_mut_ptr(), SESSION, name.loco, name.ticket, front, rear) }
    }

    pub fn authority(&mut self, name: Pair, end: u32) -> Answer {
        unsafe { kb_authority(self.0.as_mut_ptr(), SESSION, name.loco, name.ticket, end) }
    }

    pub fn danger(&mut self, name: Pair, location: u32) -> Answer {
        unsafe { kb_danger(self.0.as_mut_ptr(), SESSION, name.loco, name.ticket, location) }
    }

    pub fn sos(&mut self, two: Pair, one: Pair, grid: u32) -> Answer {
        unsafe { kb_sos(self.0.as_mut_ptr(), SESSION, two.loco, two.ticket, one.loco, one.ticket, grid) }
    }

    pub fn clear(&mut self, name: Pair, other: u32) -> Answer {
        unsafe { kb_clear(self.0.as_mut_ptr(), SESSION, name.loco, name.ticket, other) }
    }

    pub fn back(&mut self, k: u32) -> Answer {
        unsafe { kb_step_back(self.0.as_mut_ptr(), SESSION, k) }
    }

    pub fn run_record(&mut self, held: &[u8], before: u32) -> RecordAnswer {
        let mut to = RecordAnswer::default();
        unsafe { kb_run_record(&mut to, self.0.as_mut_ptr(), SESSION, held.as_ptr(), held.len(), before) };
        to
    }

    pub fn end(&self, name: Pair) -> Answer {
        unsafe { kb_end(self.0.as_ptr(), SESSION, name.loco, name.ticket) }
    }
}
