//! How often each call gave each answer.

/// The calls, and the refusals that the specification gives to each, in its order.
pub const CALLS: [(&str, &[u32]); 7] = [
    ("lay out", &[1]),
    ("add", &[1, 2, 3, 4, 5]),
    ("step", &[1, 2, 6, 7]),
    ("look up", &[1, 2, 9]),
    ("remove", &[1, 2, 9]),
    ("prune", &[1, 8, 6]),
    ("play line", &[1]),
];

#[derive(Clone, Copy, Debug, PartialEq, Eq)]
pub enum Call {
    LayOut,
    Add,
    Step,
    LookUp,
    Remove,
    Prune,
    PlayLine,
}

#[derive(Clone, Debug, Default)]
pub struct Refusals([[u32; 10]; CALLS.len()]);

impl Refusals {
    pub fn note(&mut self, call: Call, number: u32) {
        self.0[call as usize][number as usize] += 1;
    }

    pub fn calls(&self) -> u64 {
        self.0.iter().flatten().map(|n| u64::from(*n)).sum()
    }

    pub fn refused(&self) -> u64 {
        let refused = self.0.iter().flat_map(|numbers| &numbers[1..]);
        refused.map(|n| u64::from(*n)).sum()
    }

    /// The first answer that a call never gave, acceptance included.
    pub fn missing(&self) -> Option<String> {
        self.lines()
            .find(|(_, _, count)| *count == 0)
            .map(|(call, number, _)| format!("{call}: {number}"))
    }

    pub fn print(&self) {
        for (call, number, count) in self.lines() {
            println!("{count:9} {call}: {number}");
        }
    }

    fn lines(&self) -> impl Iterator<Item = (&'static str, u32, u32)> + '_ {
        CALLS
            .iter()
            .zip(&self.0)
            .flat_map(|((call, numbers), counts)| {
                std::iter::once(&0)
                    .chain(numbers.iter())
                    .map(move |n| (*call, *n, counts[*n as usize]))
            })
    }
}
