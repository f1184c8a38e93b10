//! Calls on rows of which something was changed at random. The library's answer has to be the table's; a refused call may not change
//! a byte; an accepted one has to do what the reference does with the same words.

mod change;
mod play;
mod recorded;
mod step;
pub mod unread;

use crate::differences::{self, Compared, Difference, same};
use crate::draws::Rng;
use crate::oracle;
use crate::refusals::{Call, Refusals};
use crate::sides::{Sides, remove_pair};
use reference::layout::*;
use reference::{
    self, Addition, CoefficientCombine, ContactId, ContactManifold, ContactPoint, Entity,
    PackedFeatureId, Vec3, add_pair, vec3, words,
};
use sardinerod::{ContactGraph, Shares, raw};

/// None, one, or up to three at once, so that the order of the refusals is seen.
fn damages(rng: &mut Rng) -> usize {
    rng.of(&[0, 1, 1, 1, 1, 1, 1, 2, 2, 3])
}

/// One of the calls with damaged rows.
pub fn any_call(
    rng: &mut Rng,
    sides: &Sides,
    shares: &Shares,
    refusals: &mut Refusals,
) -> Compared {
    match rng.below(20) {
        0 => lay_out(rng, refusals),
        1 => prune(rng, refusals),
        2..4 => look_up(rng, sides, refusals),
        4..6 => remove(rng, sides, refusals),
        6..9 => add(rng, sides, refusals),
        9..13 => play::play_line(rng, sides, shares, refusals),
        _ => step::step(rng, sides, shares, refusals),
    }
}

fn answered(refusals: &mut Refusals, call: Call, expected: u32, number: u32) -> Compared {
    refusals.note(call, number);
    same(&format!("answer of {call:?}, damaged"), expected, number)
}

fn unchanged<T: PartialEq>(number: u32, before: &T, after: &T) -> Compared {
    if number != 0 && before != after {
        return Err(Difference::new("refused call", "no change", "a change"));
    }
    Ok(())
}

/// Whether a graph's words after a call are what the reference's graph says. No coefficient is combined in these calls.
fn same_graph(reference: &reference::ContactGraph, words: &[u32]) -> Compared {
    let graph = ContactGraph::from_words(words.to_vec())
        .map_err(|refusal| Difference::new("graph after a call", "accepted", refusal))?;
    let combined_by = vec![[CoefficientCombine::Average; 2]; graph.capacity() as usize];
    differences::graph(reference, &combined_by, &graph)
}

fn damaged_graph(rng: &mut Rng, sides: &Sides) -> Vec<u32> {
    let mut graph = sides.graph.words().to_vec();
    unread::graph(rng, &mut graph);
    for _ in 0..damages(rng) {
        change::graph(rng, &mut graph);
    }
    graph
}

/// With more words a graph reaches past the lists of any capacity.
const LONG: usize = 2 * CONTACT_SIZE;
const _: () = assert!(LONG > graph_records(MOST_CONTACTS) + CONTACT_COLLIDER2);

/// Of two colliders, a body's number behind a mark of 0 any.
fn request(rng: &mut Rng, graph: &[u32]) -> Vec<u32> {
    let marks = 0..REQUEST_LENGTH;
    let mut request: Vec<u32> = marks.map(|_| rng.below(2) as u32).collect();
    let mut colliders = [(); 2].map(|()| rng.below(COLLIDERS) as u32);
    for mark in [REQUEST_BODY1, REQUEST_BODY2] {
        request[mark + 1] = match request[mark] {
            0 => rng.word(),
            _ => rng.below(BODIES) as u32,
        };
    }
    request[REQUEST_SPECULATIVE_DISTANCE] = rng.word();
    // Those of some record, in either order.
    if rng.one_in(3) && graph.len() > LONG {
        let capacity = (graph[GRAPH_CAPACITY] as usize).min(MOST_CONTACTS);
        let record = &graph[graph_records(capacity)..];
        colliders = [record[CONTACT_COLLIDER1], record[CONTACT_COLLIDER2]];
        if !rng.one_in(2) {
            colliders.reverse();
        }
    }
    [request[REQUEST_COLLIDER1], request[REQUEST_COLLIDER2]] = colliders;
    match rng.below(6) {
        0 => change::length(rng, &mut request),
        1 | 2 => change::any_word(rng, &mut request),
        3 => request[REQUEST_COLLIDER1] = request[REQUEST_COLLIDER2],
        _ => {}
    }
    request
}

/// An answer's words, mostly of the right length, else of one of the others.
fn answer_words(rng: &mut Rng, right: usize, others: &[usize]) -> Vec<u32> {
    let lengths = [&[right; 7], others].concat();
    vec![rng.word(); rng.of(&lengths)]
}

fn add(rng: &mut Rng, sides: &Sides, refusals: &mut Refusals) -> Compared {
    let mut graph = damaged_graph(rng, sides);
    let request = request(rng, &graph);
    let right = ADD_ANSWER_LENGTH;
    let mut answer = answer_words(rng, right, &[right - 1, right + 1]);
    let before = (graph.clone(), answer.clone());
    let expected = oracle::add(&graph, &request, answer.len());
    let number = raw::add(&mut graph, &request, &mut answer);
    answered(refusals, Call::Add, expected, number)?;
    if number != 0 {
        return unchanged(number, &before, &(graph, answer));
    }
    let mut reference = words::graph(&before.0);
    let id = add_pair(&mut reference, &addition(&request));
    same("id of an addition", vec![id.unwrap().0], answer)?;
    same_graph(&reference, &graph)
}

fn addition(request: &[u32]) -> Addition {
    let body = |mark: usize| (request[mark] == 1).then_some(Entity(request[mark + 1]));
    Addition {
        collider1: Entity(request[REQUEST_COLLIDER1]),
        collider2: Entity(request[REQUEST_COLLIDER2]),
        body1: body(REQUEST_BODY1),
        body2: body(REQUEST_BODY2),
        contact_events: request[REQUEST_CONTACT_EVENTS] == 1,
        modify_contacts: request[REQUEST_MODIFY_CONTACTS] == 1,
        speculative_distance: f32::from_bits(request[REQUEST_SPECULATIVE_DISTANCE]),
    }
}

fn any_id(rng: &mut Rng, graph: &[u32]) -> u32 {
    match rng.below(4) {
        0 => change::number(rng),
        _ => graph.get(GRAPH_LIST).copied().unwrap_or(0),
    }
}

fn look_up(rng: &mut Rng, sides: &Sides, refusals: &mut Refusals) -> Compared {
    let graph = damaged_graph(rng, sides);
    let id = any_id(rng, &graph);
    let right = LOOK_UP_ANSWER_LENGTH;
    let mut answer = answer_words(rng, right, &[right - 1, right + 1, 0]);
    let before = answer.clone();
    let expected = oracle::look_up(&graph, id, answer.len());
    let number = raw::look_up(&graph, id, &mut answer);
    answered(refusals, Call::LookUp, expected, number)?;
    if number != 0 {
        return unchanged(number, &before, &answer);
    }
    same("edge", &edge_words(&graph, id)[..], &answer[..])
}

/// What looking up a standing contact answers.
fn edge_words(graph: &[u32], id: u32) -> [u32; LOOK_UP_ANSWER_LENGTH] {
    let record = &graph[graph_record(graph[GRAPH_CAPACITY] as usize, id as usize)..];
    let mut words = [0; LOOK_UP_ANSWER_LENGTH];
    words[LOOK_UP_CONTACT] = id;
    words[LOOK_UP_COLLIDER1] = record[CONTACT_COLLIDER1];
    words[LOOK_UP_COLLIDER2] = record[CONTACT_COLLIDER2];
    for (to, from) in [
        (LOOK_UP_BODY1, CONTACT_BODY1),
        (LOOK_UP_BODY2, CONTACT_BODY2),
    ] {
        if record[from] == 1 {
            words[to] = 1;
            words[to + 1] = record[from + 1];
        }
    }
    words[LOOK_UP_PAIR_INDEX] = record[CONTACT_PAIR_INDEX];
    words[LOOK_UP_TOUCHING] = record[CONTACT_EDGE_TOUCHING];
    words[LOOK_UP_CONTACT_EVENTS] = record[CONTACT_EDGE_CONTACT_EVENTS];
    words
}

fn remove(rng: &mut Rng, sides: &Sides, refusals: &mut Refusals) -> Compared {
    let mut graph = damaged_graph(rng, sides);
    let id = any_id(rng, &graph);
    let before = graph.clone();
    let expected = oracle::remove(&graph, id);
    let number = raw::remove(&mut graph, id);
    answered(refusals, Call::Remove, expected, number)?;
    if number != 0 {
        return unchanged(number, &before, &graph);
    }
    let mut reference = words::graph(&before);
    remove_pair(&mut reference, ContactId(id));
    same_graph(&reference, &graph)
}

/// A capacity past the most contacts.
const TOO_LARGE: usize = MOST_CONTACTS + 44;

fn lay_out(rng: &mut Rng, refusals: &mut Refusals) -> Compared {
    let capacity = match rng.below(3) {
        0 => change::number(rng),
        _ => 1 + rng.below(12) as u32,
    };
    let fitting = graph_length((capacity as usize).min(TOO_LARGE));
    let length = match rng.below(6) {
        0 => fitting + 1,
        1 => fitting - 1,
        2 => rng.below(6),
        _ => fitting,
    };
    let mut graph: Vec<u32> = (0..length).map(|_| rng.word()).collect();
    let before = graph.clone();
    let expected = oracle::lay_out(length, capacity);
    let number = raw::lay_out(&mut graph, capacity);
    answered(refusals, Call::LayOut, expected, number)?;
    if number != 0 {
        return unchanged(number, &before, &graph);
    }
    let mut empty = vec![0; length];
    empty[GRAPH_CAPACITY] = capacity;
    same("empty graph", empty, graph)
}

fn prune(rng: &mut Rng, refusals: &mut Refusals) -> Compared {
    let style = rng.style();
    let mut float = || match rng.one_in(8) {
        true => rng.word(),
        false => rng.float(style).to_bits(),
    };
    let mut normal: Vec<u32> = (0..PRUNE_NORMAL_LENGTH).map(|_| float()).collect();
    let mut points: Vec<u32> = (0..PRUNE_POINTS_LENGTH).map(|_| float()).collect();
    let count = match rng.below(4) {
        0 => change::number(rng),
        _ => rng.many_points() as u32,
    };
    let right = PRUNE_ANSWER_LENGTH;
    let mut answer = answer_words(rng, right, &[right - 1, right + 1]);
    match rng.below(12) {
        0 => change::length(rng, &mut normal),
        1 => change::length(rng, &mut points),
        _ => {}
    }
    let before = answer.clone();
    let expected = oracle::prune(normal.len(), points.len(), count, answer.len());
    let number = raw::prune(&normal, &points, count, &mut answer);
    answered(refusals, Call::Prune, expected, number)?;
    match number {
        0 => same("kept points", kept(&normal, &points, count), answer),
        _ => unchanged(number, &before, &answer),
    }
}

/// How many points stay, and their numbers; 0 past them.
fn kept(normal: &[u32], points: &[u32], count: u32) -> Vec<u32> {
    let vector = |words: &[u32]| -> Vec3 {
        let [x, y, z] = [words[0], words[1], words[2]].map(f32::from_bits);
        vec3(x, y, z)
    };
    let points = points.chunks(PRUNE_POINT_SIZE);
    let points = points.take(count as usize).enumerate();
    let mut manifold = ContactManifold::new(
        points.map(|(k, point)| {
            let penetration = f32::from_bits(point[PRUNE_POINT_PENETRATION]);
            ContactPoint::new(vector(point), Vec3::ZERO, Vec3::ZERO, penetration)
                .with_feature_ids(PackedFeatureId(k as u32), PackedFeatureId::UNKNOWN)
        }),
        vector(normal),
    );
    manifold.prune_points();
    let mut kept = vec![manifold.points.len() as u32];
    kept.extend(manifold.points.iter().map(|point| point.feature_id1.0));
    kept.resize(PRUNE_ANSWER_LENGTH, 0);
    kept
}

/// The lengths that the library answers for every capacity, and those that it refuses.
pub fn lengths() -> Compared {
    for capacity in (0..TOO_LARGE as u32).chain([u32::MAX, 1 << 31]) {
        for length in [0, LENGTHS_LENGTH - 1, LENGTHS_LENGTH, LENGTHS_LENGTH + 1] {
            let mut answer = vec![7; length];
            let number = raw::lengths(capacity, &mut answer);
            let allowed = (1..=MOST_CONTACTS).contains(&(capacity as usize));
            let fits = allowed && length == LENGTHS_LENGTH;
            same("answer of lengths", u32::from(!fits), number)?;
            let expected = match fits {
                true => oracle::lengths(capacity as usize)
                    .map(|n| n as u32)
                    .to_vec(),
                false => vec![7; length],
            };
            same("lengths", expected, answer)?;
        }
    }
    Ok(())
}

/// The limits, sizes and places that the library answers, and the lengths that it refuses.
pub fn layout() -> Compared {
    for length in [0, LAYOUT_LENGTH - 1, LAYOUT_LENGTH, LAYOUT_LENGTH + 1] {
        let mut answer = vec![7; length];
        let number = raw::layout(&mut answer);
        let fits = length == LAYOUT_LENGTH;
        same("answer of layout", u32::from(!fits), number)?;
        if !fits {
            same("layout", vec![7; length], answer)?;
            continue;
        }
        for ((name, value), word) in TABLE.iter().zip(answer) {
            same(name, *value as u32, word)?;
        }
    }
    Ok(())
}
