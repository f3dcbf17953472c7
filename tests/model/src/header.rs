//! Numbers of the C header, read from its text when this is compiled. No rule of the model uses them: they are for the programs that
//! lend sessions, so that a session's size stands by hand in the header alone.

const TEXT: &[u8] = include_bytes!("../../../include/kavach_bench.h");

/// The bytes of a session.
pub const SESSION_SIZE: u32 = defined("#define KB_SESSION_SIZE ");

/// The number behind a definition's name; where the header has no such definition, the build ends.
pub const fn defined(definition: &str) -> u32 {
    let mut at = 0;
    while !begins(at, definition.as_bytes()) {
        at += 1;
    }
    at += definition.len();
    assert!(TEXT[at].is_ascii_digit(), "the definition is no number");
    let mut number = 0;
    while TEXT[at].is_ascii_digit() {
        number = 10 * number + (TEXT[at] - b'0') as u32;
        at += 1;
    }
    number
}

/// Whether the text at an offset begins with these bytes. Past the end of the text the build ends.
const fn begins(at: usize, bytes: &[u8]) -> bool {
    let mut n = 0;
    while n < bytes.len() {
        if TEXT[at + n] != bytes[n] {
            return false;
        }
        n += 1;
    }
    true
}
