//! The time of playing a trace by the library, at two lengths, so that the growth shows.
//!
//! Drawn traces are those of `traces`, one after another. The others are what costs most for each byte: as many goes as there is room
//! for, each of which clears the rows, and one go with all the lines before it, which are read again for each active pair.

use super::{BATCHES, median, median_ratio};
use compare::traces::undamaged;
use reference::trace::{CAPACITY, MOST_BYTES, play};
use sardinerod::Trace;
use std::hint::black_box;
use std::time::Instant;

const LENGTHS: [usize; 2] = [MOST_BYTES / 2, MOST_BYTES];

const SEED: u64 = 20_265;

const SETTINGS: &[u8] =
    b"T\t3C800000\t3F800000\t3BA3D70A\t00000000\t3F733333\t1\t3F000000\t1\t00000000\t1\n";
const MANIFOLD: &[u8] = b"M\t1\t0\t00000000\t3F800000\t00000000\n";
const GO: &[u8] = b"G\n";

pub fn measure_all() {
    println!();
    println!("ms for a trace at capacity {CAPACITY}, median of {BATCHES}");
    println!("trace           bytes    lines   steps   library");
    measure("drawn", drawn);
    measure("many goes", |most| {
        filled(most, &additions(), &[SETTINGS, GO].concat(), b"")
    });
    measure("one go", |most| {
        filled(most, &additions(), MANIFOLD, &[SETTINGS, GO].concat())
    });
}

/// Prints a line for each length, and how the time grows.
fn measure(name: &str, trace: impl Fn(usize) -> Vec<u8>) {
    let traces = LENGTHS.map(trace);
    let mut times = LENGTHS.map(|_| vec![]);
    for _ in 0..BATCHES {
        for (trace, times) in traces.iter().zip(&mut times) {
            times.push(milliseconds(trace));
        }
    }
    for (trace, times) in traces.iter().zip(&times) {
        let (lines, steps) = (count(trace, b""), count(trace, GO));
        let (bytes, library) = (trace.len(), median(times));
        println!("{name:12}  {bytes:7}  {lines:7}  {steps:6}  {library:8.2}");
    }
    let [half, whole] = &times;
    println!("{name:12}  {:32.1}x", median_ratio(whole, half));
}

/// The lines that begin so.
fn count(trace: &[u8], start: &[u8]) -> usize {
    let lines = trace.split_inclusive(|byte| *byte == b'\n');
    lines.filter(|line| line.starts_with(start)).count()
}

fn milliseconds(trace: &[u8]) -> f64 {
    let start = Instant::now();
    let printed = Trace::new(black_box(trace)).printed(CAPACITY as u32);
    let time = start.elapsed().as_secs_f64() * 1e3;
    assert_eq!(printed.unwrap(), play(trace, CAPACITY).concat());
    time
}

/// As many pairs as there is room for.
fn additions() -> Vec<u8> {
    let line = |n: usize| format!("A\t0\t{}\t-\t-\t1\t0\t00000000\n", n + 1).into_bytes();
    (0..CAPACITY).flat_map(line).collect()
}

/// The middle as often as there is room for it.
fn filled(most: usize, first: &[u8], middle: &[u8], last: &[u8]) -> Vec<u8> {
    let times = (most - first.len() - last.len()) / middle.len();
    [first, &middle.repeat(times), last].concat()
}

/// Drawn traces without an unreadable line, up to the last line that fits.
fn drawn(most: usize) -> Vec<u8> {
    let readable = |trace: &Vec<u8>| play(trace, CAPACITY).iter().all(|out| out != b"10\n");
    let traces = (0..).map(|number| undamaged(SEED, number));
    let mut whole = vec![];
    for trace in traces.filter(readable) {
        whole.extend(trace);
        if whole.len() >= most {
            break;
        }
    }
    whole.truncate(most);
    let lines_end = whole.iter().rposition(|byte| *byte == b'\n');
    whole.truncate(lines_end.map_or(0, |feed| feed + 1));
    whole
}
