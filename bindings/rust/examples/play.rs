//! Plays a trace at capacity 4, and prints what it prints: `play [FILE]`, else from standard input.

use std::error::Error;
use std::io::{self, Read, Write};
use std::{env, fs};

use sardinerod::Trace;

const CAPACITY: u32 = 4;

/// Plays the trace of these bytes, line by line.
pub fn play(bytes: &[u8], out: &mut impl Write) -> Result<(), Box<dyn Error>> {
    for printed in Trace::new(bytes).play(CAPACITY)? {
        out.write_all(&printed)?;
    }
    Ok(())
}

#[allow(dead_code, reason = "tests/play.rs calls `play`")]
fn main() -> Result<(), Box<dyn Error>> {
    let mut bytes = vec![];
    match env::args_os().nth(1) {
        Some(path) => bytes = fs::read(path)?,
        None => {
            io::stdin().read_to_end(&mut bytes)?;
        }
    }
    play(&bytes, &mut io::stdout().lock())
}
