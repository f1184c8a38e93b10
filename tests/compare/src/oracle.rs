//! The table of refusals, over words, from the specification's table and docs/BUFFERS.md. Each call answers the first number of its
//! order whose condition holds, or 0. Each condition is counted where it is the first that holds.

use crate::branches::condition;
use reference::layout::*;
use std::collections::HashSet;

/// What a step is lent: the rows that are read, the graph, and the lengths of the rows that are written.
#[derive(Clone, Copy)]
pub struct StepRows<'a> {
    pub settings: &'a [u32],
    pub colliders: &'a [u32],
    pub bodies: &'a [u32],
    pub proposals: &'a [u32],
    pub shares: &'a [u32],
    pub graph: &'a [u32],
    pub bits: usize,
    pub events: usize,
    pub changes: usize,
    pub distances: usize,
    pub answer: usize,
}

/// Whether one of the conditions holds; the first that does is counted.
macro_rules! any_of {
    ($($holds:expr => $name:literal),+ $(,)?) => {{
        $(if $holds {
            condition!($name);
            return true;
        })+
        false
    }};
}

pub fn lay_out(graph: usize, capacity: u32) -> u32 {
    u32::from(capacity_misfits(graph, capacity))
}

pub fn add(graph: &[u32], request: &[u32], answer: usize) -> u32 {
    if graph_misfits(graph) || addition_misfits(request, answer) {
        return 1;
    }
    if graph_strays(graph) || request_strays(request) {
        return 2;
    }
    let [collider1, collider2] = [request[REQUEST_COLLIDER1], request[REQUEST_COLLIDER2]];
    if collider1 == collider2 {
        return 3;
    }
    if pair_stands(graph, collider1, collider2) {
        return 4;
    }
    if listed(graph).len() == capacity(graph) {
        return 5;
    }
    0
}

pub fn step(rows: &StepRows) -> u32 {
    if graph_misfits(rows.graph) || step_misfits(rows) {
        return 1;
    }
    if settings_stray(rows.settings)
        || rows.colliders.chunks(COLLIDER_SIZE).any(collider_strays)
        || rows.bodies.chunks(BODY_SIZE).any(body_strays)
        || graph_strays(rows.graph)
    {
        return 2;
    }
    let active = listed(rows.graph);
    let proposal = |id: &u32| &rows.proposals[PROPOSAL_SIZE * *id as usize..][..PROPOSAL_SIZE];
    if active.iter().any(|id| hook_strays(proposal(id))) {
        return 2;
    }
    if active.iter().any(|id| overfull(proposal(id))) {
        return 6;
    }
    if shares_bad(rows.shares, active) {
        return 7;
    }
    0
}

/// By the lengths alone: what a line answers is printed. Of `rows` the answer is not lent.
pub fn play_line(rows: &StepRows, player: usize, out: usize, answer: usize) -> u32 {
    let misfits = graph_misfits(rows.graph)
        || step_misfits(rows)
        || play_misfits(rows.graph, player, out, answer);
    u32::from(misfits)
}

pub fn look_up(graph: &[u32], id: u32, answer: usize) -> u32 {
    if answer != LOOK_UP_ANSWER_LENGTH {
        condition!("table 1: look up's answer");
        return 1;
    }
    remove(graph, id)
}

pub fn remove(graph: &[u32], id: u32) -> u32 {
    if graph_misfits(graph) {
        return 1;
    }
    if graph_strays(graph) {
        return 2;
    }
    if not_standing(graph, id) {
        return 9;
    }
    0
}

pub fn prune(normal: usize, points: usize, count: u32, answer: usize) -> u32 {
    if prune_misfits(normal, points, answer) {
        return 1;
    }
    let count = count as usize;
    if count <= STORED_POINTS {
        return 8;
    }
    if count > PROPOSED_POINTS {
        return 6;
    }
    0
}

// ---- 1: lengths.

/// The lengths of a step's rows, in the order of its arguments.
pub fn lengths(capacity: usize) -> [usize; LENGTHS_LENGTH] {
    [
        SETTINGS_LENGTH,
        COLLIDERS * COLLIDER_SIZE,
        BODIES * BODY_SIZE,
        capacity * PROPOSAL_SIZE,
        SHARES_ENTRIES + capacity,
        graph_length(capacity),
        MOST_WORKERS * bit_words(capacity),
        capacity * EVENT_SIZE,
        capacity * CHANGE_SIZE,
        capacity,
    ]
}

fn capacity_misfits(graph: usize, capacity: u32) -> bool {
    let capacity = capacity as usize;
    any_of! {
        capacity == 0 => "table 1: capacity 0",
        capacity > MOST_CONTACTS => "table 1: capacity too large",
        graph != graph_length(capacity) => "table 1: graph",
    }
}

fn graph_misfits(graph: &[u32]) -> bool {
    let Some(capacity) = graph.get(GRAPH_CAPACITY) else {
        condition!("table 1: graph without a capacity");
        return true;
    };
    capacity_misfits(graph.len(), *capacity)
}

fn addition_misfits(request: &[u32], answer: usize) -> bool {
    any_of! {
        request.len() != REQUEST_LENGTH => "table 1: request",
        answer != ADD_ANSWER_LENGTH => "table 1: addition's answer",
    }
}

fn step_misfits(rows: &StepRows) -> bool {
    let [
        settings,
        colliders,
        bodies,
        proposals,
        shares,
        _,
        bits,
        events,
        changes,
        distances,
    ] = lengths(capacity(rows.graph));
    any_of! {
        rows.settings.len() != settings => "table 1: settings",
        rows.colliders.len() != colliders => "table 1: colliders",
        rows.bodies.len() != bodies => "table 1: bodies",
        rows.proposals.len() != proposals => "table 1: proposals",
        rows.shares.len() != shares => "table 1: shares",
        rows.bits != bits => "table 1: bit words",
        rows.events != events => "table 1: events",
        rows.changes != changes => "table 1: changes",
        rows.distances != distances => "table 1: distances",
        rows.answer != STEP_ANSWER_LENGTH => "table 1: step's answer",
    }
}

fn play_misfits(graph: &[u32], player: usize, out: usize, answer: usize) -> bool {
    any_of! {
        player != PLAYER_LENGTH => "table 1: player",
        out != PRINTED_SIZE * capacity(graph) => "table 1: printed bytes",
        answer != PLAY_ANSWER_LENGTH => "table 1: a line's answer",
    }
}

fn prune_misfits(normal: usize, points: usize, answer: usize) -> bool {
    any_of! {
        normal != PRUNE_NORMAL_LENGTH => "table 1: normal",
        points != PRUNE_POINTS_LENGTH => "table 1: points to prune",
        answer != PRUNE_ANSWER_LENGTH => "table 1: prune's answer",
    }
}

// ---- 2: numbers, marks, rules and counts, but for the graph's.

fn is_no_mark(word: u32) -> bool {
    word > 1
}

fn is_no_rule(word: u32) -> bool {
    !(1..=RULES).contains(&(word as usize))
}

fn is_no_collider(number: u32) -> bool {
    number as usize >= COLLIDERS
}

/// The number behind a mark, where that is 1.
fn is_no_body(record: &[u32], mark: usize) -> bool {
    record[mark] == 1 && record[mark + 1] as usize >= BODIES
}

fn request_strays(request: &[u32]) -> bool {
    any_of! {
        is_no_collider(request[REQUEST_COLLIDER1]) => "table 2: request's collider 1",
        is_no_collider(request[REQUEST_COLLIDER2]) => "table 2: request's collider 2",
        is_no_mark(request[REQUEST_BODY1]) => "table 2: request's mark of body 1",
        is_no_body(request, REQUEST_BODY1) => "table 2: request's body 1",
        is_no_mark(request[REQUEST_BODY2]) => "table 2: request's mark of body 2",
        is_no_body(request, REQUEST_BODY2) => "table 2: request's body 2",
        is_no_mark(request[REQUEST_CONTACT_EVENTS]) => "table 2: request's event mark",
        is_no_mark(request[REQUEST_MODIFY_CONTACTS]) => "table 2: request's modify mark",
    }
}

fn settings_stray(settings: &[u32]) -> bool {
    let named = settings[SETTINGS_MATCHING];
    let matching = settings[SETTINGS_MATCHING_VALUE];
    any_of! {
        is_no_mark(settings[SETTINGS_MATCH_CONTACTS]) => "table 2: mark of match_contacts",
        is_no_rule(settings[SETTINGS_FRICTION_RULE]) => "table 2: default friction's rule",
        is_no_rule(settings[SETTINGS_RESTITUTION_RULE]) => "table 2: default restitution's rule",
        is_no_mark(named) => "table 2: matching's presence mark",
        named == 1 && is_no_mark(matching) => "table 2: matching mark",
    }
}

fn collider_strays(collider: &[u32]) -> bool {
    match collider[PRESENCE] {
        0 => false,
        1 => present_collider_strays(collider),
        _ => any_of! { true => "table 2: collider's presence mark" },
    }
}

fn present_collider_strays(collider: &[u32]) -> bool {
    let [friction, restitution] = [collider[COLLIDER_FRICTION], collider[COLLIDER_RESTITUTION]];
    let friction_rule = collider[COLLIDER_FRICTION_RULE];
    let restitution_rule = collider[COLLIDER_RESTITUTION_RULE];
    any_of! {
        is_no_mark(collider[COLLIDER_BODY]) => "table 2: collider's mark of a body",
        is_no_body(collider, COLLIDER_BODY) => "table 2: collider's body",
        is_no_mark(friction) => "table 2: collider's friction mark",
        friction == 1 && is_no_rule(friction_rule) => "table 2: collider's friction rule",
        is_no_mark(restitution) => "table 2: collider's restitution mark",
        restitution == 1 && is_no_rule(restitution_rule) => "table 2: collider's restitution rule",
        is_no_mark(collider[COLLIDER_MARGIN]) => "table 2: collider's margin mark",
        is_no_mark(collider[COLLIDER_SENSOR]) => "table 2: sensor mark",
    }
}

fn body_strays(body: &[u32]) -> bool {
    match body[PRESENCE] {
        0 => false,
        1 => present_body_strays(body),
        _ => any_of! { true => "table 2: body's presence mark" },
    }
}

fn present_body_strays(body: &[u32]) -> bool {
    let [friction, rule] = [body[BODY_FRICTION], body[BODY_FRICTION_RULE]];
    any_of! {
        is_no_mark(body[BODY_STATIC]) => "table 2: static mark",
        is_no_mark(friction) => "table 2: body's friction mark",
        friction == 1 && is_no_rule(rule) => "table 2: body's friction rule",
        is_no_mark(body[BODY_MARGIN]) => "table 2: body's margin mark",
        is_no_mark(body[BODY_SPECULATIVE_MAXIMUM]) => "table 2: mark of a speculative maximum",
    }
}

fn hook_strays(proposal: &[u32]) -> bool {
    any_of! { is_no_mark(proposal[PROPOSAL_HOOK]) => "table 2: hook's answer" }
}

// ---- 2: the graph.

fn capacity(graph: &[u32]) -> usize {
    graph[GRAPH_CAPACITY] as usize
}

fn listed(graph: &[u32]) -> &[u32] {
    &graph[GRAPH_LIST..][..graph[GRAPH_LISTED] as usize]
}

fn free(graph: &[u32]) -> &[u32] {
    &graph[graph_free(capacity(graph))..][..graph[GRAPH_FREED] as usize]
}

fn record(graph: &[u32], id: u32) -> &[u32] {
    &graph[graph_record(capacity(graph), id as usize)..][..CONTACT_SIZE]
}

fn colliders(graph: &[u32], id: u32) -> (u32, u32) {
    let contact = record(graph, id);
    (contact[CONTACT_COLLIDER1], contact[CONTACT_COLLIDER2])
}

/// The lower and the higher collider.
fn pair_of(graph: &[u32], id: u32) -> (u32, u32) {
    let (a, b) = colliders(graph, id);
    (a.min(b), a.max(b))
}

pub fn graph_strays(graph: &[u32]) -> bool {
    counts_stray(graph)
        || ids_stray(graph[GRAPH_GIVEN], listed(graph), free(graph))
        || list_strays(graph)
        || listed(graph)
            .iter()
            .any(|id| contact_strays(record(graph, *id)))
}

fn counts_stray(graph: &[u32]) -> bool {
    let head = [GRAPH_CAPACITY, GRAPH_GIVEN, GRAPH_LISTED, GRAPH_FREED];
    let [capacity, given, pairs, freed] = head.map(|place| graph[place]);
    any_of! {
        given > capacity => "table 2: ids given over the capacity",
        pairs > capacity => "table 2: listed pairs over the capacity",
        freed > capacity => "table 2: free ids over the capacity",
    }
}

fn list_strays(graph: &[u32]) -> bool {
    any_of! {
        list_and_contacts_disagree(graph) => "table 2: list and contacts not naming each other",
        pair_stands_twice(graph) => "table 2: a pair standing twice",
    }
}

fn ids_stray(given: u32, listed: &[u32], free: &[u32]) -> bool {
    if listed.iter().chain(free).any(|id| *id >= given) {
        condition!("table 2: an id free or standing, never given");
        return true;
    }
    let mut times_free = vec![0; given as usize];
    let mut standing = vec![false; given as usize];
    free.iter().for_each(|id| times_free[*id as usize] += 1);
    listed.iter().for_each(|id| standing[*id as usize] = true);
    let ids = || times_free.iter().zip(&standing);
    any_of! {
        ids().any(|(times, _)| *times > 1) => "table 2: an id free twice",
        ids().any(|(times, standing)| *times == 1 && *standing) => "table 2: an id free and standing",
        ids().any(|(times, standing)| *times == 0 && !standing) => "table 2: an id given, neither",
    }
}

/// An entry and its contact name each other by the entry's place; of an id that is listed twice one place is another.
fn list_and_contacts_disagree(graph: &[u32]) -> bool {
    let mut entries = listed(graph).iter().enumerate();
    entries.any(|(place, id)| record(graph, *id)[CONTACT_PAIR_INDEX] as usize != place)
}

fn pair_stands_twice(graph: &[u32]) -> bool {
    let mut pairs = HashSet::new();
    let mut ids = listed(graph).iter();
    ids.any(|id| !pairs.insert(pair_of(graph, *id)))
}

fn contact_strays(contact: &[u32]) -> bool {
    let marks = &contact[CONTACT_EDGE_FLAGS..CONTACT_COUNT_CHANGE];
    if let Some(mark) = marks.iter().position(|mark| is_no_mark(*mark)) {
        condition!("table 2: contact's mark 1" + mark);
        return true;
    }
    let manifolds = contact[CONTACT_MANIFOLDS] as usize;
    let points = |m: usize| contact[contact_manifold(m) + MANIFOLD_COUNT] as usize;
    any_of! {
        is_no_collider(contact[CONTACT_COLLIDER1]) => "table 2: contact's collider 1",
        is_no_collider(contact[CONTACT_COLLIDER2]) => "table 2: contact's collider 2",
        is_no_mark(contact[CONTACT_BODY1]) => "table 2: contact's mark of body 1",
        is_no_body(contact, CONTACT_BODY1) => "table 2: contact's body 1",
        is_no_mark(contact[CONTACT_BODY2]) => "table 2: contact's mark of body 2",
        is_no_body(contact, CONTACT_BODY2) => "table 2: contact's body 2",
        is_no_mark(contact[CONTACT_CACHE]) => "table 2: contact's mark of a cache",
        manifolds > MANIFOLDS => "table 2: too many stored manifolds",
        (0..manifolds).any(|m| points(m) > STORED_POINTS) => "table 2: too many stored points",
    }
}

// ---- 4, 6, 7 and 9.

fn pair_stands(graph: &[u32], collider1: u32, collider2: u32) -> bool {
    let stands = |a: u32, b: u32| {
        let named = |id: &u32| colliders(graph, *id) == (a, b);
        listed(graph).iter().any(named)
    };
    any_of! {
        stands(collider1, collider2) => "table 4: in the same order",
        stands(collider2, collider1) => "table 4: in the other order",
    }
}

fn overfull(proposal: &[u32]) -> bool {
    let count = proposal[PROPOSAL_COUNT] as usize;
    let points = |m: usize| proposal[proposed_manifold(m) + PROPOSED_MANIFOLD_COUNT] as usize;
    any_of! {
        count > MANIFOLDS => "table 6: too many manifolds",
        (0..count).any(|m| points(m) > PROPOSED_POINTS) => "table 6: too many points",
    }
}

fn shares_bad(shares: &[u32], active: &[u32]) -> bool {
    let workers = shares[SHARES_WORKERS] as usize;
    if workers == 0 || workers > MOST_WORKERS {
        condition!(if (workers == 0) {
            "table 7: no worker"
        } else {
            "table 7: too many workers"
        });
        return true;
    }
    let counts = &shares[SHARES_COUNTS..][..workers];
    let total: u64 = counts.iter().map(|n| u64::from(*n)).sum();
    let entries = &shares[SHARES_ENTRIES..];
    if total > entries.len() as u64 {
        condition!("table 7: more listed than the capacity");
        return true;
    }
    let listed = &entries[..total as usize];
    let mut once = HashSet::new();
    any_of! {
        listed.iter().any(|id| !active.contains(id)) => "table 7: something else listed",
        listed.iter().any(|id| !once.insert(id)) => "table 7: a pair listed twice",
        listed.len() < active.len() => "table 7: a pair not listed",
    }
}

fn not_standing(graph: &[u32], id: u32) -> bool {
    any_of! {
        id >= graph[GRAPH_GIVEN] => "table 9: an id never given",
        !listed(graph).contains(&id) => "table 9: a free id",
    }
}
