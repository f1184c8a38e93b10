//! A trace from standard input, played as the program of crates/play_trace does: play_trace < TRACE

use reference::trace::program;
use std::io::{Read, Write, stdin, stdout};

fn main() -> std::io::Result<()> {
    let mut trace = vec![];
    stdin().read_to_end(&mut trace)?;
    stdout().write_all(&program(&trace))
}
