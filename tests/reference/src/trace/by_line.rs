//! One line from any player, and the rows that a go fills, over words. What a player means that no trace leaves is from the promise
//! of `play_line`: the lines since the last go are those from `stretch` on that begin below `place`, up to one that fits no record.
//! Their numbers may be out of range, and stand in the rows as they are.

use super::{Line, Read, read};
use crate::PairKey;
use crate::layout::*;

/// Where a trace stands.
#[derive(Clone, Copy, Debug, PartialEq, Eq)]
pub struct Player {
    /// The place of the next line.
    pub place: u64,
    /// Where the lines since the last go begin.
    pub stretch: u64,
    /// The line above is a manifold or a point.
    pub takes_points: bool,
    /// Settings stand since the last go.
    pub settings: bool,
    /// All numbers since the last go are in range, those of additions apart.
    pub fits: bool,
}

impl Player {
    /// With nothing read since the last go.
    pub fn at(place: u64) -> Self {
        Self {
            place,
            stretch: place,
            takes_points: false,
            settings: false,
            fits: true,
        }
    }

    /// A mark is set where its word is not 0.
    pub fn from_words(words: &[u64]) -> Self {
        Self {
            place: words[PLAYER_PLACE],
            stretch: words[PLAYER_STRETCH],
            takes_points: words[PLAYER_TAKES_POINTS] != 0,
            settings: words[PLAYER_SETTINGS] != 0,
            fits: words[PLAYER_FITS] != 0,
        }
    }

    pub fn words(self) -> [u64; PLAYER_LENGTH] {
        let mut words = [0; PLAYER_LENGTH];
        words[PLAYER_PLACE] = self.place;
        words[PLAYER_STRETCH] = self.stretch;
        words[PLAYER_TAKES_POINTS] = u64::from(self.takes_points);
        words[PLAYER_SETTINGS] = u64::from(self.settings);
        words[PLAYER_FITS] = u64::from(self.fits);
        words
    }
}

/// What a line asks for.
#[derive(Clone, Debug, PartialEq, Eq)]
pub enum Asked {
    Nothing,
    /// An addition, by the words of its request.
    Addition(Vec<u32>),
    Go,
}

/// What the line at the player's place asks for, and the player after it; none where it is unreadable. The trace has not ended.
pub fn next_line(trace: &[u8], player: Player) -> Option<(Asked, Player)> {
    let (read, place) = read_at(trace, player.place)?;
    let mut next = Player {
        place,
        takes_points: false,
        ..player
    };
    let asked = match read.line {
        Line::Go if player.settings => return Some((Asked::Go, Player::at(place))),
        Line::Go => return None,
        Line::Point(_) if !player.takes_points => return None,
        Line::Addition(_) => return Some((Asked::Addition(read.words), next)),
        _ => Asked::Nothing,
    };
    next.takes_points = matches!(read.line, Line::Manifold(..) | Line::Point(_));
    next.settings |= matches!(read.line, Line::Settings(_));
    next.fits &= read.in_range;
    Some((asked, next))
}

/// The line at a place, if it fits a record, and the place behind it.
fn read_at(trace: &[u8], place: u64) -> Option<(Read, u64)> {
    let rest = trace.get(usize::try_from(place).ok()?..)?;
    let line = rest.split_inclusive(|byte| *byte == b'\n').next()?;
    Some((read(line)?, place + line.len() as u64))
}

/// The rows that a go fills.
#[derive(Clone, Debug, PartialEq, Eq)]
pub struct Filled {
    pub settings: Vec<u32>,
    pub colliders: Vec<u32>,
    pub bodies: Vec<u32>,
    pub proposals: Vec<u32>,
    pub shares: Vec<u32>,
}

/// Those of a go at the player's place, on the words of a graph that is in range.
pub fn filled(trace: &[u8], player: Player, graph: &[u32]) -> Filled {
    let mut lines = vec![];
    let mut at = player.stretch;
    while at < player.place
        && let Some((read, next)) = read_at(trace, at)
    {
        lines.push(read);
        at = next;
    }
    let capacity = graph[GRAPH_CAPACITY] as usize;
    let active = &graph[GRAPH_LIST..][..graph[GRAPH_LISTED] as usize];
    let mut proposals = vec![0; PROPOSAL_SIZE * capacity];
    for id in active.iter().map(|id| *id as usize) {
        let contact = &graph[graph_record(capacity, id)..];
        let key = PairKey::new(contact[CONTACT_COLLIDER1], contact[CONTACT_COLLIDER2]);
        let proposal = &mut proposals[PROPOSAL_SIZE * id..][..PROPOSAL_SIZE];
        propose(&lines, key, proposal);
    }
    let mut shares = vec![0; SHARES_ENTRIES + capacity];
    shares[SHARES_WORKERS] = 1;
    shares[SHARES_COUNTS] = active.len() as u32;
    shares[SHARES_ENTRIES..][..active.len()].copy_from_slice(active);
    Filled {
        settings: settings(&lines),
        colliders: records(&lines, COLLIDERS, COLLIDER_SIZE, is_collider),
        bodies: records(&lines, BODIES, BODY_SIZE, is_body),
        proposals,
        shares,
    }
}

fn settings(lines: &[Read]) -> Vec<u32> {
    let mut stated = lines.iter().rev();
    stated
        .find(|read| matches!(read.line, Line::Settings(_)))
        .map_or(vec![0; SETTINGS_LENGTH], |read| read.words.clone())
}

fn is_collider(line: &Line) -> bool {
    matches!(line, Line::Collider(..))
}

fn is_body(line: &Line) -> bool {
    matches!(line, Line::Body(..))
}

/// A row of so many records. A line's first word is the record's number, and its place is the presence mark's.
fn records(lines: &[Read], count: usize, size: usize, own: fn(&Line) -> bool) -> Vec<u32> {
    let mut row = vec![0; count * size];
    for Read { words, .. } in lines.iter().filter(|read| own(&read.line)) {
        if let Some(record) = row.chunks_mut(size).nth(words[0] as usize) {
            record.copy_from_slice(words);
            record[PRESENCE] = 1;
        }
    }
    row
}

/// A pair's proposal. Past a limit, the count is the next number and the rest is left out.
fn propose(lines: &[Read], key: PairKey, proposal: &mut [u32]) {
    proposal[PROPOSAL_HOOK] = 1;
    let mut manifolds: Vec<Vec<&[u32]>> = vec![];
    let mut open = false;
    for Read { line, words, .. } in lines {
        match line {
            Line::Hook(colliders, _) if colliders.key() == key => {
                proposal[PROPOSAL_HOOK] = words[2]
            }
            Line::Manifold(colliders, _) => {
                open = colliders.key() == key;
                if open {
                    manifolds.push(vec![&words[2..]]);
                }
            }
            Line::Point(_) if open => manifolds.last_mut().unwrap().push(words),
            _ => {}
        }
    }
    proposal[PROPOSAL_COUNT] = manifolds.len().min(MANIFOLDS + 1) as u32;
    for (m, manifold) in manifolds.iter().take(MANIFOLDS).enumerate() {
        let (normal, points) = manifold.split_first().unwrap();
        let place = &mut proposal[proposed_manifold(m)..][..PROPOSED_MANIFOLD_SIZE];
        place[PROPOSED_MANIFOLD_COUNT] = points.len().min(PROPOSED_POINTS + 1) as u32;
        place[PROPOSED_MANIFOLD_NORMAL..PROPOSED_MANIFOLD_POINTS].copy_from_slice(normal);
        for (p, point) in points.iter().take(PROPOSED_POINTS).enumerate() {
            place[proposed_point(p)..][..PROPOSED_POINT_SIZE].copy_from_slice(point);
        }
    }
}
