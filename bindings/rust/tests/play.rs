//! The example prints what is stored, and what bindings/c/play.c prints of the same trace.

#[path = "../examples/play.rs"]
mod example;

use sardinerod::Trace;
use std::fmt::Write;

const TRACE: &[u8] = include_bytes!("../examples/play.trace");

#[test]
fn the_example_prints_what_is_stored() {
    let mut out = Vec::new();
    example::play(TRACE, &mut out).expect("the capacity is taken");
    let played = String::from_utf8(out).expect("a trace prints text");
    assert_eq!(played, include_str!("../examples/play.stdout"));
}

#[test]
fn the_example_plays_as_in_c() {
    let mut play = Trace::new(TRACE).play(4).unwrap();
    let mut out = String::new();
    for (k, printed) in play.by_ref().enumerate() {
        if !printed.is_empty() {
            let text = String::from_utf8(printed).expect("a trace prints text");
            write!(out, "line {}:\n{text}", k + 1).unwrap();
        }
    }
    let (place, length) = (play.place(), TRACE.len());
    writeln!(out, "the trace has ended at byte {place} of {length}").unwrap();
    assert_eq!(out, include_str!("../../c/play.stdout"));
}
