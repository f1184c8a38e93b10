//! Command lines: numbers by name, and `--counts`.

use std::process::exit;

pub struct Arguments<const N: usize> {
    pub numbers: [u64; N],
    pub counts: bool,
}

/// Numbers that are not given have their defaults. Anything else ends the program with the names.
pub fn arguments<const N: usize>(names: [(&str, u64); N]) -> Arguments<N> {
    let mut arguments = Arguments {
        numbers: names.map(|(_, default)| default),
        counts: false,
    };
    let mut words = std::env::args().skip(1);
    while let Some(word) = words.next() {
        let place = names.iter().position(|(name, _)| *name == word);
        match (place, place.and_then(|_| words.next()?.parse().ok())) {
            (Some(place), Some(number)) => arguments.numbers[place] = number,
            (None, _) if word == "--counts" => arguments.counts = true,
            _ => usage(names),
        }
    }
    arguments
}

fn usage<const N: usize>(names: [(&str, u64); N]) -> ! {
    for (name, default) in names {
        eprintln!("{name} NUMBER (else {default})");
    }
    eprintln!("--counts");
    exit(2);
}
