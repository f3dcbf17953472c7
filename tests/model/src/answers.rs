//! The paper's answer numbers. 0 is accepted.

// Packets.
pub const SHORT: u32 = 1;
pub const BAD_TYPE: u32 = 2;
pub const BAD_LENGTH: u32 = 3;
pub const BAD_FIELD: u32 = 4;
pub const BAD_PADDING: u32 = 5;
pub const BAD_DISTANCE: u32 = 6;

// Sessions, modes and frame age.
pub const BAD_LOCO: u32 = 10;
pub const BAD_BYTES: u32 = 11;
pub const ALREADY_REGISTERED: u32 = 12;
pub const REGISTER_FULL: u32 = 13;
pub const NO_TICKET_LEFT: u32 = 14;
pub const NO_FREE_RUN: u32 = 15;
pub const NO_SUCH_TRAIN: u32 = 16;
pub const OUT_OF_RANGE: u32 = 17;
pub const NO_POSITION: u32 = 18;
pub const NO_CELL: u32 = 19;
pub const NO_PLACE: u32 = 20;
pub const NO_ORDER: u32 = 21;
pub const NOT_KEPT: u32 = 22;
pub const SAME_TRAIN: u32 = 23;

// Recordings and mode traces.
pub const WRONG_RECORD: u32 = 24;
