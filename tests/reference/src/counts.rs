//! How often each branch is reached. A name that is not in its list does not compile.

use std::sync::atomic::{AtomicU32, Ordering::Relaxed};

/// A list of branches, each with a counter. A row of names that is counted by place stands in the order of its places.
#[macro_export]
macro_rules! branches {
    ($(#[$attribute:meta])* $list:ident: $($name:literal),+ $(,)?) => {
        $(#[$attribute])*
        pub struct $list;

        impl $list {
            pub const NAMES: &'static [&'static str] = &[$($name),+];

            #[inline]
            pub fn counters() -> &'static [::std::sync::atomic::AtomicU32] {
                static COUNTERS: [::std::sync::atomic::AtomicU32; $list::NAMES.len()] =
                    [const { ::std::sync::atomic::AtomicU32::new(0) }; $list::NAMES.len()];
                &COUNTERS
            }

            pub fn counts() -> impl Iterator<Item = (&'static str, u32)> {
                let names = Self::NAMES.iter().copied();
                names.zip($crate::counts::loaded(Self::counters()))
            }
        }
    };
}

/// Counts a branch of a list: by its name, by the first name of a row and a place in the row, by the arm that is taken, or by a
/// call that does no more than count.
#[macro_export]
macro_rules! reach_in {
    ($list:ty; match $of:tt { $($arm:pat $(if $guard:expr)? => $name:literal),+ $(,)? }) => {
        if cfg!(feature = "counts") {
            #[allow(unused_parens)]
            let place = match $of {
                $($arm $(if $guard)? => const { $crate::counts::place(<$list>::NAMES, $name) }),+
            };
            $crate::counts::count(<$list>::counters(), place)
        }
    };
    ($list:ty; if $holds:tt { $yes:literal } else { $no:literal }) => {
        $crate::reach_in!($list; match $holds { true => $yes, false => $no })
    };
    ($list:ty; $first:literal + $n:expr) => {
        if cfg!(feature = "counts") {
            let first = const { $crate::counts::place(<$list>::NAMES, $first) };
            $crate::counts::count(<$list>::counters(), first + $n)
        }
    };
    ($list:ty; $name:literal) => {
        $crate::reach_in!($list; $name + 0)
    };
    ($list:ty; by $call:expr) => {
        if cfg!(feature = "counts") {
            $call
        }
    };
}

pub const fn place(names: &[&str], name: &str) -> usize {
    let mut i = 0;
    while i < names.len() {
        if same(names[i].as_bytes(), name.as_bytes()) {
            return i;
        }
        i += 1;
    }
    panic!("not in the list of branches")
}

const fn same(a: &[u8], b: &[u8]) -> bool {
    if a.len() != b.len() {
        return false;
    }
    let mut i = 0;
    while i < a.len() {
        if a[i] != b[i] {
            return false;
        }
        i += 1;
    }
    true
}

// One thread counts, so that no addition gets lost.
#[inline]
pub fn count(counters: &[AtomicU32], branch: usize) {
    let counter = &counters[branch];
    counter.store(counter.load(Relaxed).wrapping_add(1), Relaxed);
}

pub fn loaded(counters: &[AtomicU32]) -> impl Iterator<Item = u32> {
    counters.iter().map(|counter| counter.load(Relaxed))
}
