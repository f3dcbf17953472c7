//! Reads a recording on standard input and writes its listing to standard output.

use std::io::{self, BufReader, BufWriter, ErrorKind};
use std::process::ExitCode;

const BUFFER: usize = 1 << 16;

fn main() -> ExitCode {
    let input = BufReader::with_capacity(BUFFER, io::stdin().lock());
    let output = BufWriter::with_capacity(BUFFER, io::stdout().lock());
    match bench_model::recording::listing(input, output) {
        Ok(()) => ExitCode::SUCCESS,
        // Whoever read the listing has seen enough.
        Err(error) if error.kind() == ErrorKind::BrokenPipe => ExitCode::SUCCESS,
        Err(error) => {
            eprintln!("listing: {error}");
            ExitCode::FAILURE
        }
    }
}
