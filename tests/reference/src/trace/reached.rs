//! What traces reach, where counting it needs more than playing does.

use super::*;

pub fn number(field: &[u8], number: Option<u32>) {
    if field.len() > 1 && field[0] == b'0' {
        reach!(match (number, field.len()) {
            (None, _) => "number: zeros in front, too large",
            (Some(_), ..=10) => "number: zeros in front",
            (Some(_), _) => "number: zeros in front, over 10 digits",
        });
    }
    match number {
        None => reach!("number: too large"),
        Some(u32::MAX) => reach!("number: the largest"),
        Some(_) => {}
    }
}

pub fn float(field: &[u8], float: f32) {
    if field.iter().any(u8::is_ascii_lowercase) {
        reach!("float: a small letter");
    }
    if float.is_nan() {
        reach!(if (float.to_bits() == f32::NAN.to_bits()) {
            "float: NaN"
        } else {
            "float: another NaN"
        });
    }
}

/// The matching setting's field, neither missing nor a dash.
pub fn matching(field: &[u8], number: Option<u32>) {
    reach!(match number {
        Some(0) => "matching: 0",
        Some(1) => "matching: 1",
        Some(_) => "matching: out of range",
        None => "matching: not a mark",
    });
    if field.len() > 1 && matches!(number, Some(0 | 1)) {
        reach!("matching: zeros in front");
    }
}

pub fn left_over(line: &Line) {
    reach!("unreadable: a field left over");
    if let Line::Settings(_) = line {
        reach!("unreadable: a field behind the matching setting");
    }
}

pub fn addition(refusal: Option<u32>) {
    reach!(match refusal {
        None => "A: accepted",
        Some(OUT_OF_RANGE) => "A: 2",
        Some(SAME_COLLIDER) => "A: 3",
        Some(PAIR_EXISTS) => "A: 4",
        Some(_) => "A: 5",
    });
}

/// The lines since the last go, by letter and number or pair.
#[derive(Default)]
pub struct Noted {
    /// Whether the line that counts is in range; of manifolds, whether all are.
    in_range: HashMap<(u8, u64), bool>,
    named: Vec<(u8, Colliders)>,
    additions: Vec<PairKey>,
    /// The pairs with a manifold above their addition.
    early: Vec<PairKey>,
}

impl Noted {
    pub fn line(&mut self, read: &Read, took_points: bool) {
        if !cfg!(feature = "counts") {
            return;
        }
        let (letter, number) = match &read.line {
            Line::Addition(a) => {
                let key = PairKey::new(a.collider1.0, a.collider2.0);
                self.addition(key, took_points);
                return;
            }
            Line::Go => {
                reach!("line: G");
                return;
            }
            Line::Settings(_) => (b'T', 0),
            Line::Collider(number, _) => (b'C', u64::from(*number)),
            Line::Body(number, _) => (b'B', u64::from(*number)),
            Line::Hook(colliders, _) => (b'H', colliders.key().0),
            Line::Manifold(colliders, _) => (b'M', colliders.key().0),
            Line::Point(_) => (b'P', 0),
        };
        self.colliders(read);
        self.kept(letter, number, read.in_range);
    }

    fn addition(&mut self, key: PairKey, took_points: bool) {
        reach!("line: A");
        if took_points {
            reach!("line: A, below a manifold or point");
        }
        self.additions.push(key);
        if self.in_range.contains_key(&(b'M', key.0)) {
            self.early.push(key);
        }
    }

    fn colliders(&mut self, read: &Read) {
        match read.line {
            Line::Hook(colliders, answer) => {
                let other = |(letter, c): &(u8, Colliders)| {
                    *letter == b'H' && (c.0, c.1) == (colliders.1, colliders.0)
                };
                if self.named.iter().any(other) {
                    reach!("replaced: H, named in the other order");
                }
                reach!(if answer { "H: yes" } else { "H: no" });
                self.named.push((b'H', colliders));
            }
            Line::Manifold(colliders, _) => self.named.push((b'M', colliders)),
            _ => {}
        }
    }

    fn kept(&mut self, letter: u8, number: u64, in_range: bool) {
        let before = self.in_range.insert((letter, number), in_range);
        match letter {
            b'T' => reach!("line: T"),
            b'C' => reach!("line: C"),
            b'B' => reach!("line: B"),
            b'H' => reach!("line: H"),
            b'M' => reach!("line: M"),
            _ => reach!("line: P"),
        }
        match (letter, before) {
            (_, None) => {}
            (b'T', _) => reach!("replaced: T"),
            (b'C', _) => reach!("replaced: C"),
            (b'B', _) => reach!("replaced: B"),
            (b'H', _) => reach!("replaced: H"),
            (_, Some(all)) => {
                self.in_range.insert((letter, number), in_range && all);
            }
        }
    }
}

fn active(graph: &ContactGraph, key: PairKey) -> Option<&ContactPair> {
    graph.active_pairs.iter().find(|pair| key_of(pair) == key)
}

pub fn go(records: &Records, graph: &ContactGraph) {
    named(records, graph);
    let noted = &records.noted;
    let keys = |pairs: &[PairKey]| pairs.iter().any(|key| active(graph, *key).is_some());
    if keys(&noted.early) {
        reach!("active by an addition below its manifold");
    }
    let too_large = |key: PairKey| overfull(&records.manifolds(key));
    let standing = graph.active_pairs.iter().map(key_of);
    let refused = standing.clone().find(|key| too_large(*key));
    let mut pairs = records.manifolds.iter().map(|(key, _)| *key);
    if pairs.any(|key| active(graph, key).is_none() && too_large(key)) {
        reach!("passed over: more than the most");
    }
    answer(records, refused);
    if records.strayed {
        strayed(noted, graph);
    }
    apart(records, graph);
}

fn answer(records: &Records, refused: Option<PairKey>) {
    let manifolds = refused.map(|key| records.manifolds(key).len());
    reach!(match (records.strayed, manifolds) {
        (true, Some(_)) => "G: 2, and a proposal too large",
        (true, None) => "G: 2",
        (false, Some(count)) if count > MANIFOLDS => "G: 6 by manifolds",
        (false, Some(_)) => "G: 6 by points",
        (false, None) => "G: accepted",
    });
    let last = |(_, manifold): &(PairKey, ContactManifold)| manifold.points.len();
    if records
        .manifolds
        .iter()
        .map(last)
        .any(|n| n == PROPOSED_POINTS)
    {
        reach!("as many points as are taken");
    }
}

/// Of a go that is answered 2: whether all lines that count are in range, or all of active pairs.
fn strayed(noted: &Noted, graph: &ContactGraph) {
    let mut strays = noted.in_range.iter().filter(|(_, in_range)| !**in_range);
    let passed_over = |letter: u8, key: u64| {
        matches!(letter, b'H' | b'M') && active(graph, PairKey(key)).is_none()
    };
    let letters: Vec<u8> = strays.clone().map(|((letter, _), _)| *letter).collect();
    for letter in &letters {
        match letter {
            b'T' => reach!("2 by T"),
            b'C' => reach!("2 by C"),
            b'B' => reach!("2 by B"),
            b'H' => reach!("2 by H"),
            _ => reach!("2 by M"),
        }
    }
    if letters.is_empty() {
        reach!("2 by a line replaced, alone");
    } else if strays.all(|((letter, key), _)| passed_over(*letter, *key)) {
        reach!("2 by a line passed over, alone");
    }
}

/// In which order hooks and manifolds name their pairs.
fn named(records: &Records, graph: &ContactGraph) {
    for (letter, colliders) in &records.noted.named {
        let pair = active(graph, colliders.key());
        let straight = pair.map(|pair| pair.collider1.0 == colliders.0);
        reach!(match (*letter, straight) {
            (b'H', None) => "passed over: H",
            (b'H', Some(true)) => "H: in the pair's order",
            (b'H', Some(false)) => "H: in the other order",
            (_, None) => "passed over: M",
            (_, Some(true)) => "M: in the pair's order",
            (_, Some(false)) => "M: in the other order",
        });
    }
}

/// Manifolds of an active pair with another's between them, points of one that is passed over.
fn apart(records: &Records, graph: &ContactGraph) {
    let manifolds = &records.manifolds;
    for (k, (key, manifold)) in manifolds.iter().enumerate() {
        let stands = active(graph, *key).is_some();
        if !stands && !manifold.points.is_empty() {
            reach!("passed over: P");
        }
        let before = |other: &(PairKey, ContactManifold)| other.0 == *key;
        let together = k == 0 || manifolds[k - 1].0 == *key;
        if stands && !together && manifolds[..k].iter().any(before) {
            reach!("manifolds of a pair apart");
        }
    }
}

pub fn step(events: &[CollisionEvent], changes: &[ContactStatusChange], recycled: u32) {
    for event in events {
        let (CollisionEvent::CollisionStart { body1, body2, .. }
        | CollisionEvent::CollisionEnd { body1, body2, .. }) = event;
        reach!(match event {
            CollisionEvent::CollisionStart { .. } => "event: started",
            CollisionEvent::CollisionEnd { .. } => "event: ended",
        });
        reach!(match (body1, body2) {
            (Some(_), Some(_)) => "event: both bodies",
            (Some(_), None) => "event: body 1 alone",
            (None, Some(_)) => "event: body 2 alone",
            (None, None) => "event: no body",
        });
    }
    for change in changes {
        reach!(match (*change) {
            ContactStatusChange::StartedGeneratingConstraints(_) => "change: start",
            ContactStatusChange::StoppedGeneratingConstraints { .. } => "change: stop",
            ContactStatusChange::ManifoldCountChanged { delta, .. } if delta < 0 => "change: fewer",
            ContactStatusChange::ManifoldCountChanged { .. } => "change: more",
        });
    }
    if recycled > 0 {
        reach!("recycled");
    }
    if events.len() > 1 && changes.len() > 1 {
        reach!("several events and changes of a step");
    }
}

pub fn end(records: &Records) {
    let kept = &records.noted;
    reach!(match (
        records.strayed,
        kept.in_range.is_empty(),
        kept.additions.len()
    ) {
        (true, _, _) => "ends: lines left, one out of range",
        (false, false, _) => "ends: lines left",
        (false, true, 0) => "ends: after a go",
        (false, true, _) => "ends: additions left",
    });
}
