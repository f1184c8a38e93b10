//! A line of a trace, played from any player on damaged rows. The rows that a go fills hold anything before.

use super::step::{self, Step};
use super::{addition, change, damages, recorded, same_graph};
use crate::branches::played;
use crate::differences::{Compared, Difference, same};
use crate::draws::Rng;
use crate::oracle;
use crate::refusals::{Call, Refusals};
use crate::sides::{Against, Sides, says_by_place};
use crate::traces::{damage, text};
use reference::layout::*;
use reference::trace::{
    Asked, Filled, LinePlayer, UNREADABLE_LINE, filled, next_line, number_alone, printed,
};
use reference::{add_pair, words};
use sardinerod::{Shares, raw};
use std::fmt::Debug;

/// What a call is lent. The answer of `rows` is not.
#[derive(Clone, Debug, PartialEq, Eq)]
struct Play {
    trace: Vec<u8>,
    player: Vec<u64>,
    rows: Step,
    out: Vec<u8>,
    answer: Vec<u64>,
}

impl Play {
    fn new(rng: &mut Rng, sides: &Sides, shares: &Shares) -> Self {
        let trace = recorded::trace(rng, sides);
        let mut rows = Step::new(rng, sides, shares);
        for row in work_rows(&mut rows) {
            row.fill_with(|| rng.word());
        }
        let mut any = |bytes: usize| -> Vec<u8> { (0..bytes).map(|_| rng.word() as u8).collect() };
        let out = any(PRINTED_SIZE * sides.capacity);
        let answer = any(PLAY_ANSWER_LENGTH).into_iter().map(u64::from);
        Self {
            answer: answer.collect(),
            player: player(rng, &trace).words().to_vec(),
            trace,
            rows,
            out,
        }
    }

    fn call(&mut self) -> u32 {
        let rows = &mut self.rows;
        raw::play_line(
            &self.trace,
            &mut self.player,
            &mut rows.graph,
            &mut rows.settings,
            &mut rows.colliders,
            &mut rows.bodies,
            &mut rows.proposals,
            &mut rows.shares,
            &mut rows.bits,
            &mut rows.events,
            &mut rows.changes,
            &mut rows.distances,
            &mut self.out,
            &mut self.answer,
        )
    }

    fn damage(&mut self, rng: &mut Rng, sides: &Sides) {
        match rng.below(14) {
            0 | 1 => self.change_length(rng),
            2 | 3 => damage::damage(rng, &mut self.trace),
            4..7 => change::graph(rng, &mut self.rows.graph),
            7 => self.begin_inside(rng),
            8 => self.change_place(rng),
            9 => self.change_stretch(rng),
            10 | 11 => {
                let addition = recorded::addition(rng, sides);
                self.insert_line(rng, &addition);
            }
            _ => self.change_mark(rng),
        }
    }

    fn change_length(&mut self, rng: &mut Rng) {
        let rows = &mut self.rows;
        match rng.below(13) {
            0 => change::length(rng, &mut rows.settings),
            1 => change::length(rng, &mut rows.colliders),
            2 => change::length(rng, &mut rows.bodies),
            3 => change::length(rng, &mut rows.proposals),
            4 => change::length(rng, &mut rows.shares),
            5 => change::length(rng, &mut rows.graph),
            6 => change::length(rng, &mut rows.bits),
            7 => change::length(rng, &mut rows.events),
            8 => change::length(rng, &mut rows.changes),
            9 => change::length(rng, &mut rows.distances),
            10 => change::length(rng, &mut self.player),
            11 => change::length(rng, &mut self.out),
            _ => change::length(rng, &mut self.answer),
        }
    }

    /// Bytes more at a place; what stood there is still where it is read.
    fn insert(&mut self, at: u64, bytes: &[u8]) {
        let places = &mut self.player[..PLAYER_TAKES_POINTS];
        let later = places.iter_mut().filter(|place| **place >= at);
        later.for_each(|place| *place = place.saturating_add(bytes.len() as u64));
        self.trace.splice(at as usize..at as usize, bytes.to_vec());
    }

    /// The player's line, or the first since the last go, begins inside another.
    fn begin_inside(&mut self, rng: &mut Rng) {
        let place = rng.of(&self.player[..PLAYER_TAKES_POINTS]);
        if place <= self.trace.len() as u64 {
            self.insert(place, b"-");
        }
    }

    /// An addition or a go more, before any line: also between a manifold and its points.
    fn insert_line(&mut self, rng: &mut Rng, addition: &[u8]) {
        let lines: Vec<&[u8]> = text::lines(&self.trace).collect();
        let before = lines[..rng.below(lines.len() + 1)].concat().len();
        let line = if rng.one_in(3) { b"G\n" } else { addition };
        self.insert(before as u64, line);
    }

    /// The end, past it, or any place.
    fn change_place(&mut self, rng: &mut Rng) {
        let end = self.trace.len() as u64;
        let any = rng.below(self.trace.len() + 1) as u64;
        let places = [end, end + 1, u64::MAX, any, any, any];
        self.player[PLAYER_PLACE] = rng.of(&places);
    }

    /// The beginning, the player's place, one past it, the end, one past it, or any place.
    fn change_stretch(&mut self, rng: &mut Rng) {
        let [place, end] = [self.player[PLAYER_PLACE], self.trace.len() as u64];
        let any = rng.below(self.trace.len() + 1) as u64;
        let places = [
            0,
            place,
            place.wrapping_add(1),
            end,
            end + 1,
            u64::MAX,
            any,
            any,
        ];
        self.player[PLAYER_STRETCH] = rng.of(&places);
    }

    fn change_mark(&mut self, rng: &mut Rng) {
        let mark = rng.of(&[PLAYER_TAKES_POINTS, PLAYER_SETTINGS, PLAYER_FITS]);
        let marks = [0, 1, 2, 1 << 32, u64::MAX];
        if let Some(word) = self.player.get_mut(mark) {
            *word = rng.of(&marks);
        }
    }
}

/// The rows that a go fills.
fn work_rows(rows: &mut Step) -> [&mut Vec<u32>; 5] {
    [
        &mut rows.settings,
        &mut rows.colliders,
        &mut rows.bodies,
        &mut rows.proposals,
        &mut rows.shares,
    ]
}

/// At the beginning of a line, mostly of a go, with the marks that the lines since the last go leave.
fn player(rng: &mut Rng, trace: &[u8]) -> LinePlayer {
    let mut next = Some(LinePlayer::at(0));
    let mut players = vec![];
    for line in text::lines(trace) {
        let Some(player) = next else {
            break;
        };
        players.push((line[0], player));
        next = next_line(trace, player).map(|(_, next)| next);
    }
    let of = |letter: u8| -> Vec<LinePlayer> {
        let own = players.iter().filter(|(other, _)| *other == letter);
        own.map(|(_, player)| *player).collect()
    };
    let chosen = match rng.below(6) {
        0 => of(b'A'),
        1 => vec![],
        _ => of(b'G'),
    };
    match chosen.is_empty() {
        true => rng.of(&players).1,
        false => rng.of(&chosen),
    }
}

/// Whether the line is a go that fills its rows, by place.
fn goes_by_place(play: &Play) -> bool {
    let (trace, graph) = (&play.trace, &play.rows.graph);
    let player = LinePlayer::from_words(&play.player);
    let go = matches!(next_line(trace, player), Some((Asked::Go, _)));
    go && player.fits
        && !oracle::graph_strays(graph)
        && says_by_place(&filled(trace, player, graph).settings)
}

/// Against the Rust, a go that comes to be by place is left out.
pub fn play_line(
    rng: &mut Rng,
    sides: &Sides,
    shares: &Shares,
    refusals: &mut Refusals,
) -> Compared {
    let mut play = Play::new(rng, sides, shares);
    for _ in 0..damages(rng) {
        play.damage(rng, sides);
    }
    let before = play.clone();
    let lengths = [before.player.len(), before.out.len(), before.answer.len()];
    let [player, out, answer] = lengths;
    let number = oracle::play_line(&before.rows.rows(), player, out, answer);
    if sides.against == Against::Rust && number == 0 && goes_by_place(&before) {
        return Ok(());
    }
    super::answered(refusals, Call::PlayLine, number, play.call())?;
    match number {
        0 => same_play(&expected(before)?, &play),
        _ => super::unchanged(number, &before, &play),
    }
}

/// All that is lent after an accepted call.
fn expected(mut play: Play) -> Result<Play, Difference> {
    reached_marks(&play.player);
    let player = LinePlayer::from_words(&play.player);
    let end = play.trace.len() as u64;
    if player.place >= end {
        played!(if (player.place == end) {
            "play: at the end"
        } else {
            "play: past the end"
        });
        play.answer = vec![1, 0];
        return Ok(play);
    }
    reached_line(&play.trace, player);
    let printed = match next_line(&play.trace, player) {
        None => {
            play.player = LinePlayer::at(end).words().to_vec();
            number_alone(UNREADABLE_LINE)
        }
        Some((asked, next)) => {
            play.player = next.words().to_vec();
            match asked {
                Asked::Nothing => vec![],
                Asked::Addition(request) => add(&mut play, &request)?,
                Asked::Go => go(&mut play, player)?,
            }
        }
    };
    play.out[..printed.len()].copy_from_slice(&printed);
    play.answer = vec![0, printed.len() as u64];
    Ok(play)
}

/// What an addition prints. Accepted, it leaves the words of the call itself, which are the reference's.
fn add(play: &mut Play, request: &[u32]) -> Result<Vec<u8>, Difference> {
    let graph = &mut play.rows.graph;
    let number = oracle::add(graph, request, ADD_ANSWER_LENGTH);
    reached_addition(number, graph);
    if number != 0 {
        return Ok(number_alone(number));
    }
    let mut reference = words::graph(graph);
    add_pair(&mut reference, &addition(request));
    let answered = raw::add(graph, request, &mut [0; ADD_ANSWER_LENGTH]);
    same("answer of an addition by a line", number, answered)?;
    same_graph(&reference, graph)?;
    Ok(vec![])
}

/// What a go prints. Accepted, it leaves the words of the step itself, which are the reference's.
fn go(play: &mut Play, player: LinePlayer) -> Result<Vec<u8>, Difference> {
    if !player.fits || oracle::graph_strays(&play.rows.graph) {
        played!(if (player.fits) {
            "play: go, 2 by the graph"
        } else {
            "play: go, 2 by the mark"
        });
        return Ok(number_alone(2));
    }
    reached_stretch(&play.trace, player);
    let rows = filled(&play.trace, player, &play.rows.graph);
    fill(&mut play.rows, rows);
    let before = play.rows.clone();
    let number = oracle::step(&before.rows());
    same("answer of a step by a line", number, play.rows.call())?;
    if number != 0 {
        played!(match number {
            2 => "play: go, 2 by the rows",
            _ => "play: go, 6",
        });
        return Ok(number_alone(number));
    }
    played!(if (says_by_place(&before.settings)) {
        "play: go, by place"
    } else {
        "play: go, by number"
    });
    let (events, changes) = step::stepped(&before, &play.rows)?;
    let text = printed(&events, &changes);
    played!(if (text.is_empty()) {
        "play: go, silent"
    } else {
        "play: go, prints"
    });
    Ok(text)
}

fn fill(rows: &mut Step, filled: Filled) {
    rows.settings = filled.settings;
    rows.colliders = filled.colliders;
    rows.bodies = filled.bodies;
    rows.proposals = filled.proposals;
    rows.shares = filled.shares;
}

/// Every word and byte.
fn same_play(expected: &Play, play: &Play) -> Compared {
    same("player", &expected.player, &play.player)?;
    same("answer of a line", &expected.answer, &play.answer)?;
    let (ours, theirs) = (&expected.rows, &play.rows);
    same_row("printed", &expected.out, &play.out)?;
    same_row("settings", &ours.settings, &theirs.settings)?;
    same_row("colliders", &ours.colliders, &theirs.colliders)?;
    same_row("bodies", &ours.bodies, &theirs.bodies)?;
    same_row("proposals", &ours.proposals, &theirs.proposals)?;
    same_row("shares", &ours.shares, &theirs.shares)?;
    same_row("graph", &ours.graph, &theirs.graph)?;
    same_row("bit words", &ours.bits, &theirs.bits)?;
    same_row("events", &ours.events, &theirs.events)?;
    same_row("changes", &ours.changes, &theirs.changes)?;
    same_row("distances", &ours.distances, &theirs.distances)
}

/// Rows of one length, by the first place where they differ.
fn same_row<T: PartialEq + Debug>(name: &str, reference: &[T], library: &[T]) -> Compared {
    let mut places = reference.iter().zip(library).enumerate();
    match places.find(|(_, (a, b))| a != b) {
        Some((place, (a, b))) => same(&format!("{name}, place {place}"), a, b),
        None => Ok(()),
    }
}

// ---- What is reached.

fn reached_marks(player: &[u64]) {
    let marks = &player[PLAYER_TAKES_POINTS..];
    if marks.contains(&2) {
        played!("play: a mark over 1");
    }
    if marks.contains(&(1 << 32)) {
        played!("play: a mark over the words of 32 bits");
    }
}

fn is_inside(trace: &[u8], place: u64) -> bool {
    place > 0
        && trace
            .get(place as usize - 1)
            .is_some_and(|byte| *byte != b'\n')
}

fn reached_line(trace: &[u8], player: LinePlayer) {
    let inside = is_inside(trace, player.place);
    let go = trace[player.place as usize..].starts_with(b"G\n");
    match next_line(trace, player) {
        None => played!(match (inside, go) {
            (true, _) => "play: unreadable, inside a line",
            (_, true) => "play: unreadable, a go without settings",
            _ => "play: unreadable",
        }),
        Some((Asked::Nothing, _)) => played!(if inside {
            "play: waits for a go, inside a line"
        } else {
            "play: waits for a go"
        }),
        _ => {}
    }
}

fn reached_addition(number: u32, graph: &[u32]) {
    played!(match number {
        0 => "play: addition accepted",
        2 if oracle::graph_strays(graph) => "play: addition refused with 2, the graph out of range",
        2 => "play: addition refused with 2",
        3 => "play: addition refused with 3",
        4 => "play: addition refused with 4",
        _ => "play: addition refused with 5",
    });
}

fn reached_stretch(trace: &[u8], player: LinePlayer) {
    let LinePlayer { stretch, place, .. } = player;
    if stretch > place {
        played!(if (stretch > trace.len() as u64) {
            "play: go, its lines begin past the end"
        } else {
            "play: go, its lines begin past it"
        });
        return;
    }
    if is_inside(trace, stretch) {
        played!("play: go, its lines begin inside a line");
    }
    let mut player = LinePlayer {
        takes_points: true,
        settings: true,
        ..LinePlayer::at(stretch)
    };
    while player.place < place {
        match next_line(trace, player) {
            Some((Asked::Go, _)) => played!("play: go, another go among its lines"),
            None => played!("play: go, its lines end at one that fits no record"),
            _ => {}
        }
        match next_line(trace, player) {
            Some((_, next)) => player.place = next.place,
            None => return,
        }
    }
}
