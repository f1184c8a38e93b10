//! Random traces, each by its number and the seed alone, half of them damaged: played by the library and by the reference, and compared
//! line by line.

mod answers;
pub(crate) mod damage;
mod draw;
pub(crate) mod text;

pub use answers::Answers;

use crate::counts::trace_steps_by_place;
use crate::draws::Rng;
use crate::sides::Against;
use reference::trace::play;
use std::fmt;

/// What each line prints, in turn, by the library.
fn library(trace: &[u8], capacity: usize) -> Vec<Vec<u8>> {
    let trace = sardinerod::Trace::new(trace);
    trace.play(capacity as u32).unwrap().collect()
}

pub struct Trace {
    pub text: Vec<u8>,
    pub capacity: usize,
}

/// Where a trace is played otherwise.
#[derive(Debug)]
pub struct Failure {
    pub line: usize,
    pub reference: Option<Vec<u8>>,
    pub library: Option<Vec<u8>>,
}

impl fmt::Display for Failure {
    fn fmt(&self, f: &mut fmt::Formatter<'_>) -> fmt::Result {
        let line = self.line + 1;
        let [reference, library] = [&self.reference, &self.library].map(|printed| match printed {
            Some(bytes) => format!("{:?}", String::from_utf8_lossy(bytes)),
            None => "no line".to_string(),
        });
        write!(f, "line {line}: reference {reference}, library {library}")
    }
}

/// Trace `number`; odd ones are damaged. In a quarter of them settings may say by place.
pub fn draw(seed: u64, number: u64) -> Trace {
    let mut rng = Rng::apart(seed, number);
    let large = number % 64 == 9;
    let against = match number % 8 {
        4 | 5 => Against::Model,
        _ => Against::Rust,
    };
    let mut trace = draw::trace(&mut rng, against, large);
    if number % 2 == 1 {
        damage::damage(&mut rng, &mut trace.text);
    }
    trace
}

/// The text of a trace that is neither large nor damaged.
pub fn undamaged(seed: u64, number: u64) -> Vec<u8> {
    draw::trace(&mut Rng::apart(seed, number), Against::Rust, false).text
}

/// Plays a trace on both sides and gives the number of lines.
pub fn compare(trace: &Trace, answers: &mut Answers) -> Result<usize, Failure> {
    let steps = trace_steps_by_place();
    let reference = play(&trace.text, trace.capacity);
    answers.note(&reference, trace_steps_by_place() > steps);
    let library = library(&trace.text, trace.capacity);
    match difference(&reference, &library) {
        None => Ok(reference.len()),
        Some(line) => Err(Failure {
            line,
            reference: reference.get(line).cloned(),
            library: library.get(line).cloned(),
        }),
    }
}

fn difference(reference: &[Vec<u8>], library: &[Vec<u8>]) -> Option<usize> {
    let most = reference.len().max(library.len());
    (0..most).find(|line| reference.get(*line) != library.get(*line))
}

/// The trace without the lines that its failure does not need.
pub fn shortened(trace: &Trace) -> Trace {
    let differs = |text: &[u8]| {
        let sides = [play, library].map(|side| side(text, trace.capacity));
        difference(&sides[0], &sides[1]).is_some()
    };
    let mut lines: Vec<&[u8]> = text::lines(&trace.text).collect();
    let mut line = lines.len();
    while line > 0 {
        line -= 1;
        let left = lines.remove(line);
        if !differs(&lines.concat()) {
            lines.insert(line, left);
        }
    }
    Trace {
        text: lines.concat(),
        capacity: trace.capacity,
    }
}
