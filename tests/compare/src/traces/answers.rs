//! How many traces print what.

/// The numbers that a line may print alone.
pub const NUMBERS: [u32; 6] = [2, 3, 4, 5, 6, 10];

#[derive(Clone, Debug, Default)]
pub struct Answers {
    pub traces: u64,
    by_number: [u64; NUMBERS.len()],
    events: u64,
    changes: u64,
    silent: u64,
    by_place: u64,
}

impl Answers {
    /// What a trace's lines print, and whether a step of it was by place.
    pub fn note(&mut self, printed: &[Vec<u8>], by_place: bool) {
        let any = |start: &[u8]| printed.iter().any(|output| output.starts_with(start));
        let has = |part: &[u8]| printed.iter().any(|output| contains(output, part));
        self.traces += 1;
        for (count, number) in self.by_number.iter_mut().zip(NUMBERS) {
            *count += u64::from(any(format!("{number}\n").as_bytes()));
        }
        self.events += u64::from(any(b"E\t"));
        self.changes += u64::from(has(b"S\t"));
        self.silent += u64::from(printed.iter().all(|output| output.is_empty()));
        self.by_place += u64::from(by_place);
    }

    /// Traces with all steps by number, and with one by place.
    pub fn by_rule(&self) -> [u64; 2] {
        [self.traces - self.by_place, self.by_place]
    }

    /// How many traces print each number at least once, events, changes, nothing; and have a step by place.
    pub fn lines(&self) -> impl Iterator<Item = (String, u64)> {
        let names = NUMBERS.map(|number| format!("traces that print {number}"));
        let others = [
            ("traces that print events", self.events),
            ("traces that print changes", self.changes),
            ("traces that print nothing", self.silent),
            ("traces with a step by place", self.by_place),
        ];
        let others = others.map(|(name, count)| (name.to_string(), count));
        names.into_iter().zip(self.by_number).chain(others)
    }

    pub fn print(&self) {
        for (name, count) in self.lines() {
            println!("{count:9} {name}");
        }
    }

    /// The first that no trace printed.
    pub fn missing(&self) -> Option<String> {
        let mut missing = self.lines().filter(|(_, count)| *count == 0);
        missing.next().map(|(name, _)| name)
    }
}

fn contains(output: &[u8], part: &[u8]) -> bool {
    output.windows(part.len()).any(|window| window == part)
}
