//! Recorded loads, played line by line.

use std::iter::FusedIterator;

use crate::graph::ContactGraph;
use crate::layout::*;
use crate::refusal::Refusal;
use crate::report::StepReport;
use crate::shares::Shares;
use crate::words::count;
use crate::world::World;

/// A recorded load: lines of tab-parted fields, as docs/TRACES.md lists them. Any bytes can be played. A T that names no
/// matching is played [by number](crate::Matching::ByNumber), where [`Settings`](crate::Settings) that name none are by place.
///
/// ```
/// use sardinerod::{ContactId, Trace};
///
/// let unit_box = "00000000\t00000000\t00000000\t3F800000\t3F800000\t3F800000";
/// let origin = "00000000\t00000000\t00000000";
/// let lines = [
///     "A\t0\t1\t-\t-\t1\t0\t00000000".to_owned(),
///     "T\t3C800000\t3F800000\t3BA3D70A\t00000000\t3F733333\t1\t3F000000\t1\t00000000\t1".to_owned(),
///     format!("C\t0\t-\t{unit_box}\t{origin}\t1\t1\t-\t-\t-\t0"),
///     format!("C\t1\t-\t{unit_box}\t{origin}\t1\t1\t-\t-\t-\t0"),
///     "M\t1\t0\t00000000\t3F800000\t00000000".to_owned(),
///     format!("P\t{origin}\t{origin}\t{origin}\t3C23D70A\t0\t0"),
///     "G".to_owned(),
///     "A\t1\t0\t-\t-\t1\t0\t00000000".to_owned(),
/// ];
/// let text = lines.join("\n") + "\n";
/// let trace = Trace::new(text.as_bytes());
/// assert_eq!(trace.printed(4)?, b"E\t0\t0\t0\t1\t-\t-\n4\n");
///
/// // Line by line: the pair touches from the go on.
/// let mut play = trace.play(4)?;
/// for line in &lines[..6] {
///     assert_eq!(play.next(), Some(vec![]), "{line}");
///     assert!(!play.graph().look_up(ContactId(0))?.touching);
/// }
/// assert_eq!(play.next(), Some(b"E\t0\t0\t0\t1\t-\t-\n".to_vec()));
/// assert!(play.graph().look_up(ContactId(0))?.touching);
/// assert_eq!(play.next(), Some(b"4\n".to_vec()));
/// assert_eq!(play.next(), None);
/// # Ok::<(), sardinerod::Refusal>(())
/// ```
#[derive(Clone, Copy, Debug, PartialEq, Eq)]
pub struct Trace<'a> {
    bytes: &'a [u8],
}

impl<'a> Trace<'a> {
    /// The trace of these bytes.
    pub fn new(bytes: &'a [u8]) -> Trace<'a> {
        Trace { bytes }
    }

    /// Its bytes.
    pub fn as_bytes(&self) -> &'a [u8] {
        self.bytes
    }

    /// Plays it from its first line on, over an empty graph of that capacity. Refusal 1 where the capacity is not 1 to 256.
    pub fn play(&self, capacity: u32) -> Result<Play<'a>, Refusal> {
        let graph = ContactGraph::new(capacity)?;
        Ok(Play {
            trace: self.bytes,
            player: NEW_PLAYER,
            world: World::new(capacity)?,
            shares: Shares::single(&graph),
            graph,
            out: vec![0; PRINTED_SIZE * capacity as usize],
        })
    }

    /// All that it prints at that capacity. Refusal 1 where the capacity is not 1 to 256.
    pub fn printed(&self, capacity: u32) -> Result<Vec<u8>, Refusal> {
        Ok(self.play(capacity)?.flatten().collect())
    }
}

/// Nothing is read, and all numbers are in range so far.
const NEW_PLAYER: [u64; PLAYER_LENGTH] = [0, 0, 0, 0, 1];

/// In a player, the place of the next line.
const PLACE: usize = 0;

/// The letter of a go.
const GO: u8 = b'G';

/// A trace that is being played. Its items are what each line prints, in turn: nothing, a refusal's number, or a step's events and
/// constraint changes. The last is that of the last line, or `10` of one that is unreadable.
#[derive(Clone, Debug, PartialEq, Eq)]
pub struct Play<'a> {
    trace: &'a [u8],
    player: [u64; PLAYER_LENGTH],
    graph: ContactGraph,
    world: World,
    shares: Shares,
    out: Vec<u8>,
}

impl Play<'_> {
    /// The graph as it stands. Its report, events, changes and distances are those of the last accepted step, but that no line
    /// says how many contacts were recycled: the report has 0.
    pub fn graph(&self) -> &ContactGraph {
        &self.graph
    }

    /// The graph, taken out.
    pub fn into_graph(self) -> ContactGraph {
        self.graph
    }

    /// Where the next line begins. After an unreadable line that is the trace's end.
    pub fn place(&self) -> usize {
        let place = usize::try_from(self.player[PLACE]);
        place.map_or(self.trace.len(), |place| place.min(self.trace.len()))
    }
}

impl Iterator for Play<'_> {
    type Item = Vec<u8>;

    fn next(&mut self) -> Option<Vec<u8>> {
        let letter = self.trace.get(self.place()).copied();
        let answer = self.graph.play_line(
            self.trace,
            &mut self.player,
            &mut self.world,
            &mut self.shares,
            &mut self.out,
        );
        let [ended, written] = answer.expect("the rows are those for the capacity");
        if ended == 1 {
            return None;
        }
        let printed = self.out[..written as usize].to_vec();
        if letter == Some(GO)
            && let Some(report) = report(&printed)
        {
            self.graph.set_report(report);
        }
        Some(printed)
    }
}

impl FusedIterator for Play<'_> {}

/// The counts of a step that was printed; none where a number stands for it.
fn report(printed: &[u8]) -> Option<StepReport> {
    let lines = |letter: u8| {
        let lines = printed.split(|byte| *byte == b'\n');
        count(lines.filter(|line| line.first() == Some(&letter)).count())
    };
    let accepted = !printed.first().is_some_and(u8::is_ascii_digit);
    accepted.then(|| StepReport {
        events: lines(b'E'),
        changes: lines(b'S'),
        recycled: 0,
    })
}
