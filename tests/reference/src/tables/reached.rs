//! How often a table reaches the reference's branches, and branches of its own.

use crate::branches::{Branches, ByPlace};
use crate::counts;
use std::cell::RefCell;
use std::collections::BTreeMap;
use std::sync::atomic::Ordering::Relaxed;

thread_local! {
    static REACHED: RefCell<BTreeMap<String, u32>> = const { RefCell::new(BTreeMap::new()) };
}

/// Counts a branch of the table's own.
pub fn reach(branch: impl Into<String>) {
    REACHED.with_borrow_mut(|reached| *reached.entry(branch.into()).or_insert(0) += 1);
}

/// Makes something without counting.
pub fn uncounted<T>(make: impl FnOnce() -> T) -> T {
    let own = REACHED.take();
    let lists = [Branches::counters(), ByPlace::counters()];
    let before = lists.map(|counters| counts::loaded(counters).collect::<Vec<u32>>());
    let made = make();
    for (counters, before) in lists.into_iter().zip(before) {
        for (counter, count) in counters.iter().zip(before) {
            counter.store(count, Relaxed);
        }
    }
    REACHED.set(own);
    made
}

/// What was counted: the table's own branches, the reference's, and those of the model of matching by place.
pub struct Counts {
    own: BTreeMap<String, u32>,
    reference: BTreeMap<&'static str, u32>,
}

fn fail(message: String) -> ! {
    eprintln!("{message}");
    std::process::exit(1);
}

impl Counts {
    /// Prints the counts to the standard error.
    pub fn taken() -> Self {
        let counts = Self {
            own: REACHED.take(),
            reference: Branches::counts().chain(ByPlace::counts()).collect(),
        };
        for (name, count) in &counts.reference {
            eprintln!("{count:6} {name}");
        }
        for (name, count) in &counts.own {
            eprintln!("{count:6} {name}");
        }
        counts
    }

    pub fn of(&self, name: &str) -> u32 {
        let count = self.own.get(name).or_else(|| self.reference.get(name));
        count.copied().unwrap_or(0)
    }

    /// Ends the program unless each of these was reached so often.
    pub fn at_least<'a>(&self, often: u32, names: impl IntoIterator<Item = &'a str>) {
        for name in names {
            if self.of(name) < often {
                fail(format!("reached too seldom: {name}"));
            }
        }
    }

    /// Ends the program if the model was asked: of a table that is the Rust's.
    pub fn by_number_alone(&self) {
        if let Some(name) = ByPlace::NAMES.iter().find(|name| self.of(name) > 0) {
            fail(format!("not the Rust's: {name}"));
        }
    }

    /// Ends the program if an own branch is not listed.
    pub fn none_but(&self, own: &[impl AsRef<str>]) {
        let listed = |name: &str| own.iter().any(|own| own.as_ref() == name);
        if let Some(name) = self.own.keys().find(|name| !listed(name)) {
            fail(format!("not listed: {name}"));
        }
    }
}
