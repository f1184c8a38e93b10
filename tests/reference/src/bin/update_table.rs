//! The table of crates/update_table: updates of one contact, under the id 0, with a record that is drawn too:
//! cargo run --release --offline --bin update_table > ../../crates/update_table/stdout

use reference::branches::Branches;
use reference::layout::*;
use reference::tables::calls::Rows;
use reference::tables::draws::*;
use reference::tables::hash::{Hash, bits};
use reference::tables::reached::Counts;
use reference::{CollisionDiagnostics, ContactGraph, ContactId, Edges, Quat, Vec3, words};

// ---- The draws of the contact's record.

fn point_word(case: u32, owner: u32, j: usize) -> u32 {
    match j {
        POINT_ANCHOR1..POINT_POSITION => anchor(owner, j, style(case)),
        POINT_PENETRATION | POINT_BASE_PENETRATION => penetration(owner, j, style(case)),
        POINT_FEATURES.. => feature(case, owner, j),
        _ => float(owner, j, style(case)),
    }
}

fn manifold_word(case: u32, owner: u32, r: usize) -> u32 {
    match r {
        MANIFOLD_COUNT => few_points(draw(owner, r)),
        MANIFOLD_NORMAL..MANIFOLD_FRICTION => normal(owner, r - MANIFOLD_NORMAL, style(case)),
        MANIFOLD_FRICTION..MANIFOLD_POINTS => float(owner, r, style(case)),
        MANIFOLD_POINTS.. => {
            let k = r - MANIFOLD_POINTS;
            point_word(case, draw(owner, 100 + k / POINT_SIZE), k % POINT_SIZE)
        }
    }
}

/// The record names collider 1 first.
fn swapped(owner: u32) -> bool {
    draw(owner, 60) % 8 == 0
}

/// Collider 0 or 1, at times one of the last two, which are absent.
fn collider_number(owner: u32, i: usize) -> u32 {
    let n = i - CONTACT_COLLIDER1;
    let number = if draw(owner, i) % 80 == 0 {
        COLLIDERS - 2 + n
    } else if swapped(owner) {
        1 - n
    } else {
        n
    };
    number as u32
}

/// The word at place i of a mark and a number: behind a mark of 0 any word.
fn named_word(owner: u32, mark: usize, i: usize) -> u32 {
    match i - mark {
        0 => one_in(owner, mark, 2),
        _ if one_in(owner, mark, 2) == 0 => draw(owner, i),
        _ => draw(owner, i) % BODIES as u32,
    }
}

/// As many manifolds more or fewer as there can be.
fn count_change(d: u32) -> u32 {
    if d % 2 == 0 {
        d / 2 % (MANIFOLDS as u32 + 1)
    } else {
        0xffffffff - d / 2 % MANIFOLDS as u32
    }
}

fn flag_word(owner: u32, i: usize) -> u32 {
    match i {
        CONTACT_TOUCHING => 1 - one_in(owner, i, 3),
        CONTACT_DISJOINT_AABB => one_in(owner, i, 16),
        CONTACT_MODIFY_CONTACTS => one_in(owner, i, 3),
        _ => one_in(owner, i, 2),
    }
}

/// All but the cache's words.
fn record_word(case: u32, i: usize) -> u32 {
    let owner = draw(case, 40);
    match i {
        CONTACT_COLLIDER1 | CONTACT_COLLIDER2 => collider_number(owner, i),
        CONTACT_BODY1..CONTACT_BODY2 => named_word(owner, CONTACT_BODY1, i),
        CONTACT_BODY2..CONTACT_PAIR_INDEX => named_word(owner, CONTACT_BODY2, i),
        CONTACT_PAIR_INDEX => draw(owner, i) % MOST_CONTACTS as u32,
        CONTACT_EDGE_FLAGS..CONTACT_COUNT_CHANGE => flag_word(owner, i),
        CONTACT_COUNT_CHANGE => count_change(draw(owner, i)),
        CONTACT_SPECULATIVE_DISTANCE => SPECULATIVE[(draw(owner, i) % 16) as usize],
        CONTACT_CACHE => 1 - one_in(owner, i, 10),
        CONTACT_CACHED..CONTACT_MANIFOLDS => 0,
        CONTACT_MANIFOLDS => draw(owner, i) % (MANIFOLDS as u32 + 1),
        CONTACT_FIRST_MANIFOLD.. => {
            let k = i - CONTACT_FIRST_MANIFOLD;
            let manifold = draw(owner, 100 + k / MANIFOLD_SIZE);
            manifold_word(case, manifold, k % MANIFOLD_SIZE)
        }
    }
}

// ---- The cache: of the two bodies as they are, or a little moved.

#[derive(Clone, Copy, Default)]
struct Pose {
    position: Vec3,
    rotation: Quat,
}

/// That of collider n's own body; an absent one is at the origin.
fn pose(rows: &Rows, n: usize) -> Pose {
    let named = rows.colliders[COLLIDER_SIZE * n + COLLIDER_BODY] == 1;
    match words::body(&rows.bodies[BODY_SIZE * n..]) {
        Some(body) if named => Pose {
            position: body.position,
            rotation: body.rotation,
        },
        _ => Pose::default(),
    }
}

fn cache_of(a: Pose, b: Pose) -> [u32; CACHE_SIZE] {
    let back = a.rotation.inverse();
    let t = back * (b.position - a.position);
    let r = back * b.rotation;
    let (p, q) = (a.rotation, b.rotation);
    [
        p.x, p.y, p.z, p.w, q.x, q.y, q.z, q.w, t.x, t.y, t.z, r.x, r.y, r.z, r.w,
    ]
    .map(bits)
}

/// 0.001, -0.002, 0.004, 0.01, 0.04, 0.1, 0.5, NaN.
const NUDGES: [u32; 8] = [
    0x3a83126f, 0xbb03126f, 0x3b83126f, 0x3c23d70a, 0x3d23d70a, 0x3dcccccd, 0x3f000000, 0x7fc00000,
];

/// 0.005, 0.01, -0.02, 0.04, 0.08, 0.15, 0.3, 0.5.
const TURNS: [u32; 8] = [
    0x3ba3d70a, 0x3c23d70a, 0xbca3d70a, 0x3d23d70a, 0x3da3d70a, 0x3e19999a, 0x3e99999a, 0x3f000000,
];

/// One in four parts of the translation is moved, and one in six of the rotation.
fn nudge(owner: u32, j: usize) -> u32 {
    let d = draw(owner, 80 + j);
    if j < CACHE_RELATIVE_ROTATION && d % 4 == 0 {
        NUDGES[(d / 4 % 8) as usize]
    } else if j >= CACHE_RELATIVE_ROTATION && d % 6 == 0 {
        TURNS[(d / 6 % 8) as usize]
    } else {
        0
    }
}

fn moved(owner: u32, j: usize, w: u32) -> u32 {
    bits(f32::from_bits(w) + f32::from_bits(nudge(owner, j)))
}

/// One in sixteen of the bodies' rotations is another.
fn turned(owner: u32, j: usize, w: u32) -> u32 {
    if draw(owner, 80 + j / CACHE_ROTATION2) % 16 == 0 {
        rotation(owner, 82 + j / CACHE_ROTATION2, j % CACHE_ROTATION2)
    } else {
        w
    }
}

fn cache_word(case: u32, j: usize, w: u32) -> u32 {
    let owner = draw(case, 40);
    if draw(owner, 79) % 16 == 0 {
        float(owner, 80 + j, 2)
    } else if j < CACHE_RELATIVE_TRANSLATION {
        turned(owner, j, w)
    } else {
        moved(owner, j, w)
    }
}

fn rows(key: u32) -> Rows {
    let mut rows = Rows::new(1);
    rows.draw_settings(key);
    for n in 0..2 {
        rows.draw_collider(key, n);
        rows.draw_body(key, n);
    }
    rows.draw_proposal(key, 0);
    rows
}

fn record(key: u32, rows: &Rows) -> Vec<u32> {
    let mut record: Vec<u32> = (0..CONTACT_SIZE).map(|i| record_word(key, i)).collect();
    let first = swapped(draw(key, 40)) as usize;
    let cache = cache_of(pose(rows, first), pose(rows, 1 - first));
    for (j, w) in cache.into_iter().enumerate() {
        record[CONTACT_CACHED + j] = cache_word(key, j, w);
    }
    record
}

// ---- A case's line: its number, the bit, recycled or not, the distance, the number of manifolds, the hash.

fn run(c: u32) {
    let key = draw(c, 0);
    let rows = rows(key);
    let (edge, pair) = words::contact(ContactId(0), &record(key, &rows));
    let graph = ContactGraph {
        edges: Edges::from_parts(vec![Some(edge.clone())], vec![]),
        active_pairs: vec![pair],
        ..ContactGraph::default()
    };
    let (mut narrow_phase, hooks, mut shapes, delta_secs) = rows.typed(graph);
    let mut diagnostics = CollisionDiagnostics::default();
    narrow_phase.update_contacts(
        delta_secs,
        &hooks,
        &mut shapes,
        &mut diagnostics,
        &[vec![0]],
    );
    let pair = &narrow_phase.contact_graph.active_pairs[0];
    let mut recorded = Hash::START;
    recorded.record(&edge, pair);
    println!(
        "{c}\t{}\t{}\t{:08X}\t{}\t{:08X}",
        narrow_phase.contact_status_bits.get(0) as u32,
        diagnostics.recycled_count,
        bits(shapes.asked[0].unwrap_or(0.0)),
        pair.manifolds.len(),
        recorded.0
    );
}

const CASES: u32 = 1500;

const BRANCHES: [&str; 4] = [
    "length unit 0",
    "length unit NaN",
    "length unit negative",
    "length unit positive",
];

/// The cases do not reach these five times.
const SELDOM: [&str; 2] = [
    "matched by anchors crossed, a feature unknown",
    "not matched: anchors near, features known",
];

fn main() {
    (0..CASES).for_each(run);
    let counts = Counts::taken();
    counts.by_number_alone();
    counts.none_but(&BRANCHES);
    counts.at_least(5, BRANCHES);
    counts.at_least(5, Branches::of_update().filter(|b| !SELDOM.contains(b)));
    let full: u32 = (1..=MANIFOLDS)
        .map(|n| counts.of(&format!("manifolds kept: {n}")))
        .sum();
    let recycled = counts.of("way: recycled, two bodies");
    eprintln!("of {CASES}: full with manifolds kept {full}, recycled with two bodies {recycled}");
    assert!(full * 4 >= CASES && recycled * 20 >= CASES * 3);
}
