//! How often each branch was reached.

use crate::branches::{Lists, Matchings, Parted, Plays, Table};
use reference::branches::{Branches, ByPlace, Traces};
use reference::counts::{loaded, place};

/// The branches of reference and lists.
pub fn branches() -> impl Iterator<Item = (&'static str, u32)> {
    Branches::counts().chain(Lists::counts())
}

/// The branches of the model of matching by place, how steps say the setting, and where the rules part.
pub fn by_place() -> impl Iterator<Item = (&'static str, u32)> {
    ByPlace::counts()
        .chain(Matchings::counts())
        .chain(Parted::counts())
}

/// The conditions of the table of refusals, how accepted steps say the matching setting, and what lines reach from any player.
pub fn conditions() -> impl Iterator<Item = (&'static str, u32)> {
    Table::counts()
        .chain(Matchings::counts())
        .chain(Plays::counts())
}

/// Whether the model of matching by place was asked.
pub fn model_asked() -> bool {
    ByPlace::counts().any(|(_, count)| count > 0)
}

/// Accepted steps by number, and by place.
pub fn steps_by_rule() -> [u32; 2] {
    let counts: Vec<u32> = loaded(Matchings::counters()).collect();
    let by_number = counts[const { place(Matchings::NAMES, "matching: by number") }];
    [by_number, counts.iter().sum::<u32>() - by_number]
}

/// Steps of traces by place.
pub fn trace_steps_by_place() -> u32 {
    let counts: Vec<u32> = loaded(Traces::counters()).collect();
    counts[const { place(Traces::NAMES, "step by place") }]
}

/// What traces reach.
pub fn traces() -> impl Iterator<Item = (&'static str, u32)> {
    Traces::counts()
}

/// Ends the program if one of them was not reached.
pub fn all_reached(counts: impl Iterator<Item = (&'static str, u32)>, answers: Option<String>) {
    let missing = counts
        .filter(|(_, count)| *count == 0)
        .map(|(name, _)| name.to_string())
        .chain(answers);
    let missing: Vec<String> = missing.collect();
    if !missing.is_empty() {
        println!("not reached: {}", missing.join("; "));
        std::process::exit(1);
    }
}

pub fn print(counts: impl Iterator<Item = (&'static str, u32)>) {
    counts.for_each(|(name, count)| println!("{count:9} {name}"));
}
