// The expected output of crates/contact_graph_table and crates/contact_graph_damage from a plain model after the specification:
// rustc -O -o target/contact_graph tests/contact_graph.rs && target/contact_graph table > crates/contact_graph_table/stdout
// target/contact_graph damage > crates/contact_graph_damage/stdout

#[allow(dead_code)]
#[path = "reference/src/layout.rs"]
mod layout;

use layout::*;

// ---- The model: the pairs in order, the ids given, the free ids in the order freed.
#[derive(Clone, Copy)]
struct Request {
    colliders: [u32; 2],
    bodies: [(u32, u32); 2],
    contact_events: u32,
    modify_contacts: u32,
    distance: u32,
}

struct Graph {
    capacity: usize,
    given: u32,
    free: Vec<u32>,
    pairs: Vec<(u32, Request)>,
}

const PLACEHOLDER: u32 = u32::MAX;

fn is_no_collider(number: u32) -> bool {
    number as usize >= COLLIDERS
}

fn is_no_body(mark: u32, number: u32) -> bool {
    mark == 1 && number as usize >= BODIES
}

fn number_strays(a: &Request) -> bool {
    a.colliders.iter().any(|c| is_no_collider(*c))
        || a.bodies
            .iter()
            .any(|(mark, n)| *mark > 1 || is_no_body(*mark, *n))
        || a.contact_events > 1
        || a.modify_contacts > 1
}

fn lay_out(length: usize, capacity: u32) -> Result<Graph, u32> {
    let c = capacity as usize;
    if c == 0 || c > MOST_CONTACTS || length != graph_length(c) {
        return Err(1);
    }
    Ok(Graph {
        capacity: c,
        given: 0,
        free: vec![],
        pairs: vec![],
    })
}

fn laid_out(capacity: u32) -> Graph {
    lay_out(graph_length(capacity as usize), capacity)
        .ok()
        .unwrap()
}

impl Graph {
    fn place(&self, id: u32) -> Result<usize, u32> {
        self.pairs.iter().position(|p| p.0 == id).ok_or(9)
    }

    // Refusals 2 to 5. A new id is the one freed last, else the lowest never given.
    fn add(&mut self, a: Request) -> Result<u32, u32> {
        let [c, d] = a.colliders;
        if number_strays(&a) {
            return Err(2);
        }
        if c == d {
            return Err(3);
        }
        if self
            .pairs
            .iter()
            .any(|p| p.1.colliders == [c, d] || p.1.colliders == [d, c])
        {
            return Err(4);
        }
        if self.pairs.len() == self.capacity {
            return Err(5);
        }
        let id = self.free.pop().unwrap_or_else(|| {
            self.given += 1;
            self.given - 1
        });
        self.pairs.push((id, a));
        Ok(id)
    }

    // The last pair takes the gap.
    fn remove(&mut self, id: u32) -> Result<(), u32> {
        let place = self.place(id)?;
        self.pairs.swap_remove(place);
        self.free.push(id);
        Ok(())
    }

    // The record of the pair at a place, as far as the number of manifolds: those of a new pair.
    fn record(&self, place: usize) -> [u32; CONTACT_FIRST_MANIFOLD] {
        let a = &self.pairs[place].1;
        let mut words = [0; CONTACT_FIRST_MANIFOLD];
        words[CONTACT_COLLIDER1] = a.colliders[0];
        words[CONTACT_COLLIDER2] = a.colliders[1];
        for (at, (mark, number)) in [CONTACT_BODY1, CONTACT_BODY2].iter().zip(&a.bodies) {
            words[*at] = *mark;
            words[at + 1] = mark * number;
        }
        words[CONTACT_PAIR_INDEX] = place as u32;
        words[CONTACT_EDGE_CONTACT_EVENTS] = a.contact_events;
        words[CONTACT_MODIFY_CONTACTS] = a.modify_contacts;
        words[CONTACT_SPECULATIVE_DISTANCE] = a.distance;
        words
    }

    fn line(&self) -> String {
        let mut sum = 0u32;
        for place in 0..self.pairs.len() {
            for w in self.record(place) {
                sum = sum.wrapping_add(w).wrapping_mul(16777619).wrapping_add(1);
            }
        }
        let ids: Vec<u32> = self.pairs.iter().map(|p| p.0).collect();
        format!(
            "\tgraph\t{}\t{}\t{}\tlist{}\tfree{}\trecords\t{}",
            self.given,
            ids.len(),
            self.free.len(),
            numbers(&ids),
            numbers(&self.free),
            sum
        )
    }
}

fn numbers(ns: &[u32]) -> String {
    ns.iter().map(|n| format!("\t{n}")).collect()
}

fn answered(answer: &Result<(), u32>) -> String {
    match answer {
        Ok(()) => "\tdone".into(),
        Err(n) => format!("\trefused\t{n}"),
    }
}

fn added(answer: &Result<u32, u32>) -> String {
    match answer {
        Ok(id) => format!("\tid\t{id}"),
        Err(n) => format!("\trefused\t{n}"),
    }
}

// An edge: id, colliders, bodies, place, TOUCHING, CONTACT_EVENTS. A pair that was only added does not touch.
fn found(g: &Graph, id: u32) -> String {
    match g.place(id) {
        Ok(place) => {
            let a = &g.pairs[place].1;
            let body = |(mark, n): (u32, u32)| {
                if mark == 1 {
                    n.to_string()
                } else {
                    "none".into()
                }
            };
            format!(
                "\tedge{}\t{}\t{}{}",
                numbers(&[id, a.colliders[0], a.colliders[1]]),
                body(a.bodies[0]),
                body(a.bodies[1]),
                numbers(&[place as u32, 0, a.contact_events])
            )
        }
        Err(n) => format!("\trefused\t{n}"),
    }
}

// ---- The calls of the table.
const DISTANCES: [u32; 6] = [
    0, 0x3f800000, 0x80000000, 0x3dcccccd, 0x7fc00000, 0x7f800000,
];

fn draw(key: u32, slot: u32) -> u32 {
    let low = |x: u64| x % (1 << 32);
    let a = low(key as u64 + slot as u64 * 2654435769 + 20261);
    let b = low((a + a / 65536) * 2246822519);
    let c = low((b + b / 32768) * 3266489917);
    low(c + c / 65536) as u32
}

fn collider(key: u32, slot: u32) -> u32 {
    let d = draw(key, slot);
    if d % 64 == 0 {
        COLLIDERS as u32 + d / 64 % 3
    } else {
        d / 64 % 6 * 51
    }
}

fn mark(key: u32, slot: u32) -> u32 {
    let d = draw(key, slot);
    if d % 64 == 0 {
        2
    } else {
        d / 64 % 2
    }
}

fn body(key: u32, slot: u32) -> u32 {
    let d = draw(key, slot);
    if d % 16 == 0 {
        BODIES as u32 + d / 16 % 5000
    } else {
        d / 16 % BODIES as u32
    }
}

fn request(key: u32) -> Request {
    Request {
        colliders: [collider(key, 1), collider(key, 2)],
        bodies: [(mark(key, 3), body(key, 4)), (mark(key, 5), body(key, 6))],
        contact_events: mark(key, 7),
        modify_contacts: mark(key, 8),
        distance: DISTANCES[(draw(key, 9) % 6) as usize],
    }
}

fn id(key: u32) -> u32 {
    let d = draw(key, 1);
    match d % 32 {
        0 => PLACEHOLDER,
        1 => MOST_CONTACTS as u32 + d / 32 % 9,
        _ => d / 32 % 10,
    }
}

fn call(g: &mut Graph, c: u32, counts: &mut [u32; 10]) {
    let key = draw(c, 0);
    let kind = draw(key, 0) % 10;
    if kind < [6, 2][(c / 50 % 2) as usize] {
        let a = request(key);
        let answer = g.add(a);
        counts[answer.err().unwrap_or(0) as usize] += 1;
        print!(
            "add{}{}",
            numbers(&[
                a.colliders[0],
                a.colliders[1],
                a.bodies[0].0,
                a.bodies[0].1,
                a.bodies[1].0,
                a.bodies[1].1,
                a.contact_events,
                a.modify_contacts,
                a.distance
            ]),
            added(&answer)
        );
    } else if kind < 8 {
        let id = id(key);
        let answer = g.remove(id);
        counts[if answer.is_ok() { 6 } else { 7 }] += 1;
        print!("remove\t{id}{}", answered(&answer));
    } else {
        let id = id(key);
        counts[if g.place(id).is_ok() { 8 } else { 9 }] += 1;
        print!("look_up\t{id}{}", found(g, id));
    }
    println!("{}", g.line());
}

fn lay_out_line(length: usize, capacity: u32) {
    println!(
        "lay_out\t{capacity}{}",
        answered(&lay_out(length, capacity).map(|_| ()))
    );
}

fn table() {
    let mut g = laid_out(8);
    println!("lay_out\t8\tdone{}", g.line());
    let mut counts = [0; 10];
    for c in 0..600 {
        call(&mut g, c, &mut counts);
    }
    for (length, capacity) in [
        (graph_length(1), 1),
        (graph_length(1), 0),
        (graph_length(1), 2),
        (graph_length(1), u32::MAX),
        (graph_length(0), 0),
        (graph_length(1) - 1, 1),
        (graph_length(1) + 1, 1),
    ] {
        lay_out_line(length, capacity);
    }
    let most = MOST_CONTACTS as u32;
    lay_out_line(graph_length(MOST_CONTACTS + 1), most + 1);
    lay_out_line(graph_length(MOST_CONTACTS + 1), most);
    lay_out_line(graph_length(MOST_CONTACTS), most);
    let mut g = laid_out(most);
    let half = COLLIDERS as u32 / 2;
    let nth = |c: u32| Request {
        colliders: [c % half, half + c / half],
        bodies: [(0, 0); 2],
        contact_events: 0,
        modify_contacts: 0,
        distance: 0,
    };
    let accepted = (0..most - 1).filter(|c| g.add(nth(*c)).is_ok()).count();
    println!(
        "fill\t{accepted}{}{}",
        added(&g.add(nth(most - 1))),
        added(&g.add(nth(most)))
    );
    eprintln!(
        "added, refused 2, 3, 4, 5; removed or not, found or not: {:?}",
        &counts
    );
    assert!(counts[0] >= 10 && counts[1] == 0 && counts[2..].iter().all(|n| *n >= 10));
}

// ---- The damages, over words as docs/BUFFERS.md lays them out.
impl Graph {
    // What is not recorded is 0.
    fn words(&self) -> Vec<u32> {
        let c = self.capacity;
        let mut words = vec![0; graph_length(c)];
        words[GRAPH_CAPACITY] = c as u32;
        words[GRAPH_GIVEN] = self.given;
        words[GRAPH_LISTED] = self.pairs.len() as u32;
        words[GRAPH_FREED] = self.free.len() as u32;
        words[graph_free(c)..][..self.free.len()].copy_from_slice(&self.free);
        for (place, (id, _)) in self.pairs.iter().enumerate() {
            words[GRAPH_LIST + place] = *id;
            let record = &mut words[graph_record(c, *id as usize)..];
            record[..CONTACT_FIRST_MANIFOLD].copy_from_slice(&self.record(place));
        }
        words
    }
}

// Of a record: the bodies', those of edge and pair, the cache's.
fn marks() -> Vec<usize> {
    let mut marks = vec![CONTACT_BODY1, CONTACT_BODY2];
    marks.extend(CONTACT_EDGE_FLAGS..CONTACT_COUNT_CHANGE);
    marks.push(CONTACT_CACHE);
    marks
}

fn record_strays(r: &[u32]) -> bool {
    let manifolds = r[CONTACT_MANIFOLDS] as usize;
    let points = |m: usize| r[contact_manifold(m) + MANIFOLD_COUNT] as usize;
    is_no_collider(r[CONTACT_COLLIDER1])
        || is_no_collider(r[CONTACT_COLLIDER2])
        || marks().iter().any(|k| r[*k] > 1)
        || is_no_body(r[CONTACT_BODY1], r[CONTACT_BODY1_NUMBER])
        || is_no_body(r[CONTACT_BODY2], r[CONTACT_BODY2_NUMBER])
        || manifolds > MANIFOLDS
        || (0..manifolds).any(|m| points(m) > STORED_POINTS)
}

// Refusal 2 of a graph of the right length, word for word from the table.
fn strays(w: &[u32]) -> bool {
    let c = w[GRAPH_CAPACITY] as usize;
    let given = w[GRAPH_GIVEN];
    let (listed, freed) = (w[GRAPH_LISTED] as usize, w[GRAPH_FREED] as usize);
    if given as usize > c || listed > c || freed > c {
        return true;
    }
    let list = &w[GRAPH_LIST..][..listed];
    let free = &w[graph_free(c)..][..freed];
    let record = |id: u32| &w[graph_record(c, id as usize)..][..CONTACT_SIZE];
    let never_given = list.iter().chain(free).any(|id| *id >= given);
    if never_given {
        return true;
    }
    let free_twice = (0..freed).any(|k| free[..k].contains(&free[k]));
    let both = free.iter().any(|id| list.contains(id));
    let neither = (0..given).any(|id| !free.contains(&id) && !list.contains(&id));
    let pair = |p: usize| {
        let r = record(list[p]);
        let (a, b) = (r[CONTACT_COLLIDER1], r[CONTACT_COLLIDER2]);
        (a.min(b), a.max(b))
    };
    let pair_twice = (0..listed).any(|p| (0..p).any(|q| pair(p) == pair(q)));
    let not_naming = (0..listed).any(|p| record(list[p])[CONTACT_PAIR_INDEX] as usize != p);
    let record_strays = list.iter().any(|id| record_strays(record(*id)));
    free_twice || both || neither || pair_twice || not_naming || record_strays
}

fn refusal(w: &[u32]) -> u32 {
    if lay_out(w.len(), w[GRAPH_CAPACITY]).is_err() {
        1
    } else if strays(w) {
        2
    } else {
        0
    }
}

const CAPACITY: usize = 4;

// In the damaged graph: a place of the list, of the free ids, of a contact's record.
fn listed(place: usize) -> usize {
    GRAPH_LIST + place
}

fn free(place: usize) -> usize {
    graph_free(CAPACITY) + place
}

fn at(id: usize, place: usize) -> usize {
    graph_record(CAPACITY, id) + place
}

// The number of points of a manifold of contact 0.
fn points(m: usize) -> usize {
    at(0, contact_manifold(m) + MANIFOLD_COUNT)
}

// The colliders of a contact.
fn pair(id: usize, collider1: u32, collider2: u32) -> [(usize, u32); 2] {
    [
        (at(id, CONTACT_COLLIDER1), collider1),
        (at(id, CONTACT_COLLIDER2), collider2),
    ]
}

// The damaged graph's contact 0 stands in every case that is not refused, 1 was freed last, 2 is the last, 3 was never given.
fn damaged(name: &str, refused: u32, changes: &[(usize, u32)], filled: std::ops::Range<usize>) {
    let mut g = laid_out(CAPACITY as u32);
    for (c, d, mark) in [(10, 20, 0), (30, 40, 1), (50, 60, 1)] {
        let a = Request {
            colliders: [c, d],
            bodies: [(1, 3), (mark, 4)],
            contact_events: 1,
            modify_contacts: 0,
            distance: 0x3f000000,
        };
        assert!(g.add(a).is_ok());
    }
    assert!(g.remove(1).is_ok());
    let mut words = g.words();
    for (at, word) in changes {
        words[*at] = *word;
    }
    words[filled].fill(u32::MAX);
    assert_eq!(refusal(&words), refused, "{name}");
    if refused != 0 {
        println!("{name}\trefused\t{refused}\trefused\t{refused}\trefused\t{refused}\tsame");
    } else {
        println!(
            "{name}\tedge\t{}\t{}\tid\t1\tdone\tchanged",
            words[at(0, CONTACT_COLLIDER1)],
            words[at(0, CONTACT_COLLIDER2)]
        );
    }
}

fn damage() {
    misfitting();
    straying();
    straying_ids();
    standing();
}

fn misfitting() {
    let misfits = |name: &str, changes: &[(usize, u32)]| damaged(name, 1, changes, 0..0);
    misfits("capacity 0", &[(GRAPH_CAPACITY, 0)]);
    misfits("capacity 3", &[(GRAPH_CAPACITY, 3)]);
    misfits("capacity 5", &[(GRAPH_CAPACITY, 5)]);
    misfits(
        "capacity 257",
        &[(GRAPH_CAPACITY, MOST_CONTACTS as u32 + 1)],
    );
    misfits(
        "largest capacity, a collider too",
        &[
            (GRAPH_CAPACITY, u32::MAX),
            (at(0, CONTACT_COLLIDER1), COLLIDERS as u32),
        ],
    );
}

// Numbers, marks and counts.
fn straying() {
    let max = u32::MAX;
    let (colliders, bodies) = (COLLIDERS as u32, BODIES as u32);
    let (manifolds, stored) = (MANIFOLDS as u32, STORED_POINTS as u32);
    let strays = |name: &str, changes: &[(usize, u32)]| damaged(name, 2, changes, 0..0);
    strays("collider 1", &[(at(0, CONTACT_COLLIDER1), colliders)]);
    strays("collider 2", &[(at(0, CONTACT_COLLIDER2), colliders)]);
    strays(
        "collider 1 of the last",
        &[(at(2, CONTACT_COLLIDER1), colliders)],
    );
    strays(
        "largest collider 2 of the last",
        &[(at(2, CONTACT_COLLIDER2), max)],
    );
    strays("body 1", &[(at(0, CONTACT_BODY1_NUMBER), bodies)]);
    strays(
        "body 1 of the last",
        &[(at(2, CONTACT_BODY1_NUMBER), bodies)],
    );
    strays(
        "body 2 of the last",
        &[(at(2, CONTACT_BODY2_NUMBER), bodies)],
    );
    strays(
        "body 2 by a mark",
        &[
            (at(0, CONTACT_BODY2), 1),
            (at(0, CONTACT_BODY2_NUMBER), bodies),
        ],
    );
    for (name, id) in [("mark", 0), ("mark of the last", 2)] {
        for k in marks() {
            strays(&format!("{name}\t{k}"), &[(at(id, k), 2)]);
        }
    }
    let count = at(0, CONTACT_MANIFOLDS);
    strays("7 manifolds", &[(count, manifolds + 1)]);
    strays(
        "7 manifolds of the last",
        &[(at(2, CONTACT_MANIFOLDS), manifolds + 1)],
    );
    strays("5 points", &[(count, 1), (points(0), stored + 1)]);
    strays(
        "5 points in manifold 6",
        &[(count, manifolds), (points(MANIFOLDS - 1), stored + 1)],
    );
}

fn straying_ids() {
    let max = u32::MAX;
    let over = CAPACITY as u32 + 1;
    let strays = |name: &str, changes: &[(usize, u32)]| damaged(name, 2, changes, 0..0);
    strays(
        "5 given, all known",
        &[
            (GRAPH_GIVEN, over),
            (GRAPH_FREED, 3),
            (free(1), 3),
            (free(2), 4),
        ],
    );
    strays("5 listed", &[(GRAPH_LISTED, over)]);
    strays("5 free", &[(GRAPH_FREED, over)]);
    strays("largest given", &[(GRAPH_GIVEN, max)]);
    strays("largest listed", &[(GRAPH_LISTED, max)]);
    strays("largest free", &[(GRAPH_FREED, max)]);
    strays("free twice", &[(GRAPH_FREED, 2), (free(1), 1)]);
    strays("free and standing", &[(GRAPH_FREED, 2), (free(1), 0)]);
    strays(
        "free and listed",
        &[
            (GRAPH_LISTED, 3),
            (listed(2), 1),
            (at(1, CONTACT_PAIR_INDEX), 2),
        ],
    );
    strays(
        "free and listed, another's place",
        &[
            (GRAPH_LISTED, 3),
            (listed(2), 1),
            (at(1, CONTACT_PAIR_INDEX), 0),
        ],
    );
    strays("neither, none free", &[(GRAPH_FREED, 0)]);
    strays("neither, one more given", &[(GRAPH_GIVEN, 4)]);
    strays(
        "listed, never given",
        &[
            (GRAPH_LISTED, 3),
            (listed(2), 3),
            (at(3, CONTACT_COLLIDER1), 1),
            (at(3, CONTACT_COLLIDER2), 2),
            (at(3, CONTACT_PAIR_INDEX), 2),
        ],
    );
    strays("largest listed id", &[(listed(1), max)]);
    strays("free, never given", &[(GRAPH_FREED, 2), (free(1), 3)]);
    strays("largest free id", &[(GRAPH_FREED, 2), (free(1), max)]);
    strays("pair twice", &pair(2, 10, 20));
    strays("pair twice, turned", &pair(2, 20, 10));
    strays(
        "lone collider twice",
        &[pair(0, 7, 7), pair(2, 7, 7)].concat(),
    );
    strays("place of the other", &[(at(0, CONTACT_PAIR_INDEX), 1)]);
    strays("place past the list", &[(at(0, CONTACT_PAIR_INDEX), 2)]);
    strays("largest place", &[(at(2, CONTACT_PAIR_INDEX), max)]);
    strays("listed twice", &[(listed(1), 0)]);
    strays("list turned", &[(listed(0), 2), (listed(1), 0)]);
}

// What is not refused: limits that are met, and words that record nothing.
fn standing() {
    let (manifolds, stored) = (MANIFOLDS as u32, STORED_POINTS as u32);
    let stays = |name: &str, changes: &[(usize, u32)]| damaged(name, 0, changes, 0..0);
    let filled = |name: &str, changes: &[(usize, u32)], places| damaged(name, 0, changes, places);
    stays("as built", &[]);
    stays(
        "last collider and body",
        &[
            (at(0, CONTACT_COLLIDER1), COLLIDERS as u32 - 1),
            (at(0, CONTACT_BODY1_NUMBER), BODIES as u32 - 1),
        ],
    );
    stays("lone collider once", &pair(0, 7, 7));
    let count = at(0, CONTACT_MANIFOLDS);
    let mut full = vec![(count, manifolds)];
    full.extend((0..MANIFOLDS).map(|m| (points(m), stored)));
    stays("6 manifolds of 4 points", &full);
    filled(
        "count change and distance",
        &[],
        at(0, CONTACT_COUNT_CHANGE)..at(0, CONTACT_CACHE),
    );
    filled("list past its count", &[], listed(2)..listed(CAPACITY));
    stays("list past its count, a standing id", &[(listed(2), 0)]);
    filled("free past their count", &[], free(1)..free(CAPACITY));
    stays("free past their count, a standing id", &[(free(1), 0)]);
    filled("record of a free id", &[], at(1, 0)..at(1, CONTACT_SIZE));
    stays("place of a free id", &[(at(1, CONTACT_PAIR_INDEX), 0)]);
    filled("record never given", &[], at(3, 0)..at(3, CONTACT_SIZE));
    stays("body behind 0", &[(at(0, CONTACT_BODY2_NUMBER), 5000)]);
    let cached = at(0, CONTACT_CACHED)..count;
    filled("cache behind 0", &[], cached.clone());
    filled("cache behind 1", &[(at(0, CONTACT_CACHE), 1)], cached);
    let end = at(0, CONTACT_SIZE);
    let second = at(0, contact_manifold(1));
    filled(
        "points past 1",
        &[(count, 1), (points(0), 1)],
        at(0, contact_point(0, 1))..second,
    );
    filled("manifolds past 0", &[], at(0, CONTACT_FIRST_MANIFOLD)..end);
    filled(
        "manifolds past 1",
        &[(count, 1), (points(0), stored)],
        second..end,
    );
}

fn main() {
    match std::env::args().nth(1).as_deref() {
        Some("table") => table(),
        Some("damage") => damage(),
        _ => panic!("table or damage"),
    }
}
