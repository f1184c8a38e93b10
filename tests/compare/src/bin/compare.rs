//! Random lists of calls on the static library and on avian's Rust, compared after every call; then lists whose steps may match by
//! place, compared with the model of that.

use compare::arguments::arguments;
use compare::counts::{all_reached, branches, by_place, model_asked, print};
use compare::lists::{self, Ran};
use compare::refusals::Refusals;
use compare::sides::Against;
use std::process::exit;

/// From so many lists on every branch has to be reached.
const LISTS_FOR_ALL: u64 = 600;

/// A list against the model for so many against the Rust.
const LISTS_FOR_ONE: u64 = 4;

/// Lists from number `first` on.
fn run(against: Against, seed: u64, first: u64, lists: u64) -> (Ran, Refusals) {
    let (mut ran, mut refusals) = (Ran::default(), Refusals::default());
    for list in first..first + lists {
        if let Err(failure) = lists::run(against, seed, list, &mut ran, &mut refusals) {
            println!("seed {seed}, list {list} against the {against:?}, {failure}");
            exit(1);
        }
    }
    (ran, refusals)
}

fn reached(counts: impl Iterator<Item = (&'static str, u32)>) -> usize {
    counts.filter(|(_, count)| *count > 0).count()
}

/// Gives what was made.
fn against_rust(seed: u64, first: u64, lists: u64, counts: bool) -> String {
    let (ran, refusals) = run(Against::Rust, seed, first, lists);
    if counts {
        print(branches());
        refusals.print();
    }
    if lists >= LISTS_FOR_ALL {
        all_reached(branches(), refusals.missing());
    }
    if model_asked() {
        println!("a step by place in a list against the Rust");
        exit(1);
    }
    let (calls, refused, reached) = (ran.calls, refusals.refused(), reached(branches()));
    format!(
        "{lists} lists against the Rust, by number, {calls} calls ({refused} refused), {reached} branches reached"
    )
}

/// Gives what was made.
fn against_model(seed: u64, first: u64, lists: u64, counts: bool) -> String {
    let (ran, refusals) = run(Against::Model, seed, first, lists);
    if counts {
        print(by_place());
        refusals.print();
    }
    if lists >= LISTS_FOR_ALL / LISTS_FOR_ONE {
        all_reached(by_place(), None);
    }
    let (calls, refused, reached) = (ran.calls, refusals.refused(), reached(by_place()));
    let Ran {
        steps,
        parted_steps,
        parted_lists,
        ..
    } = ran;
    format!(
        "{lists} lists against the model of by place, {calls} calls ({refused} refused), {reached} branches reached, the rules parting in {parted_steps} of {steps} steps and {parted_lists} lists"
    )
}

fn main() {
    let arguments = arguments([("--lists", 20_000), ("--first", 0), ("--seed", 20_262)]);
    let [lists, first, seed] = arguments.numbers;
    let rust = against_rust(seed, first, lists, arguments.counts);
    let model = against_model(seed, first, lists.div_ceil(LISTS_FOR_ONE), arguments.counts);
    println!("compare: {rust}; {model}; no difference");
}
