//! Damaged input: copies of the rows of random lists' calls with something changed, against the table of refusals.

use compare::arguments::arguments;
use compare::counts::{all_reached, conditions, print, steps_by_rule};
use compare::damage;
use compare::lists;
use compare::refusals::Refusals;
use std::process::exit;

/// Damaged calls before each call of a list.
const DAMAGED: usize = 4;

/// From so many calls on every condition has to be reached.
const CALLS_FOR_ALL: u64 = 20_000;

fn main() {
    let arguments = arguments([("--calls", 200_000), ("--first", 0), ("--seed", 20_263)]);
    let [calls, first, seed] = arguments.numbers;
    let mut refusals = Refusals::default();
    let mut list = first;
    while refusals.calls() < calls {
        if let Err(failure) = lists::run_damaged(seed, list, DAMAGED, &mut refusals) {
            println!("seed {seed}, list {list}, before or in {failure}");
            exit(1);
        }
        list += 1;
    }
    if let Err(difference) = damage::lengths().and_then(|()| damage::layout()) {
        println!("{difference}");
        exit(1);
    }
    if arguments.counts {
        print(conditions());
        refusals.print();
    }
    if calls >= CALLS_FOR_ALL {
        all_reached(conditions(), refusals.missing());
    }
    let reached = conditions().filter(|(_, count)| *count > 0).count();
    let (calls, refused) = (refusals.calls(), refusals.refused());
    let [by_number, by_place] = steps_by_rule();
    println!(
        "damage: {} lists, {calls} damaged calls ({refused} refused; of the steps accepted {by_number} by number against the Rust, {by_place} by place against the model), {reached} conditions reached, no difference",
        list - first
    );
}
