//! Random traces, played by the static library and over avian's Rust, compared line by line. A step by place is made over the model of
//! matching by place; what a trace prints does not show which rule matched.

use compare::arguments::arguments;
use compare::counts::{all_reached, print, traces};
use compare::traces::{Answers, Failure, Trace, compare, draw, shortened};
use std::process::exit;

/// From so many traces on everything has to be reached.
const TRACES_FOR_ALL: u64 = 3_000;

/// Leaves the trace, and one with fewer lines, in files.
fn fails(seed: u64, number: u64, trace: &Trace, failure: &Failure) -> ! {
    println!("seed {seed}, trace {number}, {failure}");
    for (name, trace) in [("whole", trace), ("short", &shortened(trace))] {
        let path = std::env::temp_dir().join(format!("trace_{seed}_{number}_{name}"));
        let written = std::fs::write(&path, &trace.text);
        let capacity = trace.capacity;
        println!("{} at capacity {capacity}: {written:?}", path.display());
    }
    exit(1);
}

fn main() {
    let arguments = arguments([("--traces", 20_000), ("--first", 0), ("--seed", 20_264)]);
    let [count, first, seed] = arguments.numbers;
    let mut answers = Answers::default();
    let mut lines = 0;
    for number in first..first + count {
        let trace = draw(seed, number);
        match compare(&trace, &mut answers) {
            Ok(n) => lines += n,
            Err(failure) => fails(seed, number, &trace, &failure),
        }
    }
    if arguments.counts {
        print(traces());
        answers.print();
    }
    if count >= TRACES_FOR_ALL {
        all_reached(traces(), answers.missing());
    }
    let reached = traces().filter(|(_, count)| *count > 0).count();
    let [by_number, by_place] = answers.by_rule();
    println!(
        "traces: {count} traces ({by_number} against the Rust, {by_place} with steps by place against the model), {lines} lines, {reached} branches reached, no difference"
    );
}
