//! The table of crates/contact_types_table: manifolds pruned, and points matched, by number, as the Rust does, and the same by place, as
//! the model does:
//! cargo run --release --offline --bin contact_types_table > ../../crates/contact_types_table/stdout

use reference::branches::ByPlace;
use reference::layout::MANIFOLDS;
use reference::tables::draws::{COARSE, OFFSETS, common, few_points, many_points, seeded};
use reference::tables::hash::bits;
use reference::tables::reached::{Counts, reach};
use reference::{ContactManifold, ContactPoint, Matching, PackedFeatureId, Vec2, Vec3, vec3};

fn draw(key: u32, slot: u32) -> u32 {
    seeded(20260, key, slot as usize)
}

/// NaN and others of its kind, the infinities, the zeros, subnormal, huge and tiny numbers.
const AWKWARD: [u32; 16] = [
    0x7fc00000, 0xff800001, 0x7f800000, 0xff800000, 0x00000000, 0x80000000, 0x00000001, 0x807fffff,
    0x00800000, 0x7f7fffff, 0xff7fffff, 0x5e268890, 0xde268890, 0x1e3ce508, 0x49742400, 0xb58637bd,
];

/// Kinds: 0 one, 1 coarse, 2 common, 3 one in six awkward, 4 awkward.
fn pattern(d: u32, kind: u32) -> u32 {
    match kind {
        0 => 0x3f800000,
        1 => COARSE[(d % 7) as usize],
        2 => common(d),
        3 if d % 6 == 0 => AWKWARD[(d / 6 % 16) as usize],
        3 => common(d),
        _ => AWKWARD[(d % 16) as usize],
    }
}

fn number(owner: u32, slot: u32, kind: u32) -> f32 {
    f32::from_bits(pattern(draw(owner, slot), kind))
}

fn vector(key: u32, kind: u32) -> Vec3 {
    vec3(
        number(key, 1, kind),
        number(key, 2, kind),
        number(key, 3, kind),
    )
}

fn word(w: u32) {
    print!("\t{w:08X}");
}

// ---- Pruning.

/// The kind of the floats in a point of each shape: 1 and 9 lie in a plane, 3 on a line; 5, 6 and 7 are copies of 1, 3 and 4 points.
const KINDS: [u32; 10] = [2, 2, 1, 2, 3, 3, 2, 1, 4, 1];

fn anchor(key: u32, shape: u32) -> Vec3 {
    let v = vector(key, KINDS[shape as usize]);
    match shape {
        1 | 9 => vec3(v.x, v.y, 0.0),
        3 => vec3(v.x, v.x * 2.0, v.x * -0.5),
        _ => v,
    }
}

fn copied(shape: u32, k: u32) -> u32 {
    match shape {
        5 => 0,
        6 => k % 3,
        7 => k % 4,
        _ => k,
    }
}

/// Units, zero, not of unit length, some with awkward floats.
fn normal(owner: u32, slot: u32) -> Vec3 {
    let key = draw(owner, slot);
    match draw(key, 4) % 12 {
        5 => vec3(1.0, 0.0, 0.0),
        6 => vec3(0.0, -1.0, 0.0),
        7 => vec3(0.6, 0.0, 0.8),
        8 => vec3(0.0, 0.0, 0.0),
        9.. => vec3(0.0, 0.0, 1.0),
        kind => vector(key, kind),
    }
}

/// Its number is a feature, which pruning does not read.
fn point(owner: u32, slot: u32, shape: u32, kind: u32, number_of: u32) -> ContactPoint {
    let key = draw(owner, slot);
    let anchor1 = anchor(key, shape);
    ContactPoint::new(anchor1, anchor1, Vec3::ZERO, number(key, 4, kind))
        .with_feature_ids(PackedFeatureId(number_of), PackedFeatureId::UNKNOWN)
}

/// The numbers of the points that stay.
fn prune_case(c: u32) {
    let key = draw(c, 0);
    let shape = c % 10;
    let count = many_points(draw(key, 1));
    let kind = draw(key, 3) % 5;
    let points = (0..count).map(|k| point(key, 100 + copied(shape, k), shape, kind, k));
    let mut m = ContactManifold::new(points, normal(key, 2));
    m.prune_points();
    print!("prune");
    word(c);
    for p in &m.points {
        word(p.feature_id1.0);
    }
    println!();
}

// ---- Matching.

/// 0.1, -0.1, 0, NaN, 1e10, 0.5, the float after 0.1, infinite.
const THRESHOLDS: [u32; 12] = [
    0x3dcccccd, 0x3dcccccd, 0x3dcccccd, 0x3dcccccd, 0x3dcccccd, 0xbdcccccd, 0x00000000, 0x7fc00000,
    0x501502f9, 0x3f000000, 0x3dccccce, 0x7f800000,
];

fn offset(d: u32) -> f32 {
    f32::from_bits(OFFSETS[(d % 8) as usize])
}

/// A grid with small offsets; style 1 far from one another, 2 with awkward floats.
fn spot(owner: u32, slot: u32, style: u32) -> Vec3 {
    let key = draw(owner, slot);
    if style == 1 {
        return vector(key, 2);
    }
    if style == 2 && draw(key, 4) % 4 == 0 {
        return vector(key, 3);
    }
    vec3(
        offset(draw(key, 1) % 2 * 7),
        offset(draw(key, 2)),
        offset(draw(key, 3) % 3),
    )
}

/// Few features, unknown ones among them; many; many and unknown ones; few known ones.
fn feature(owner: u32, slot: u32, style: u32) -> PackedFeatureId {
    let d = draw(owner, slot);
    PackedFeatureId(match style {
        0 => d % 5 / 2 * 0x40000001,
        1 => 0xc0000000 + d % 50,
        2 => {
            if d % 3 == 0 {
                0
            } else {
                0x40000000 + d % 50
            }
        }
        _ => 1 + d % 5,
    })
}

fn contact(owner: u32, slot: u32, features: u32, anchors: u32) -> ContactPoint {
    let key = draw(owner, slot);
    let [anchor1, anchor2] = [spot(key, 1, anchors), spot(key, 2, anchors)];
    let mut point = ContactPoint::new(anchor1, anchor2, Vec3::ZERO, 1.0)
        .with_feature_ids(feature(key, 6, features), feature(key, 7, features));
    point.warm_start_normal_impulse = number(key, 3, 3);
    point.warm_start_tangent_impulse = Vec2 {
        x: number(key, 4, 3),
        y: number(key, 5, 3),
    };
    point
}

/// The styles are the case's.
fn manifold(case: u32, slot: u32) -> ContactManifold {
    let features = draw(case, 1) % 4;
    let anchors = draw(case, 2) % 4;
    let key = draw(case, slot);
    let count = few_points(draw(key, 5));
    let points = (0..count).map(|j| contact(key, 1 + j, features, anchors));
    ContactManifold::new(points, Vec3::ZERO)
}

fn impulses(p: &ContactPoint) -> [u32; 3] {
    let tangent = p.warm_start_tangent_impulse;
    [p.warm_start_normal_impulse, tangent.x, tangent.y].map(bits)
}

fn match_contacts(new: &mut ContactManifold, olds: &[ContactPoint], threshold: f32, by: Matching) {
    match by {
        Matching::ByNumber => new.match_contacts(olds, threshold),
        Matching::ByPlace => new.match_contacts_by_place(olds, threshold),
    }
}

/// The impulses of each new point, after matching against the old manifolds in turn.
fn match_case(c: u32, name: &str, count: u32, by: Matching) {
    let key = draw(c, 1);
    let threshold = f32::from_bits(THRESHOLDS[(draw(key, 3) % 12) as usize]);
    let mut m = manifold(key, 4);
    let new = m.points.clone();
    for i in 0..count {
        match_contacts(&mut m, &manifold(key, 10 + i).points, threshold, by);
    }
    print!("{name}");
    word(c);
    for (p, new) in m.points.iter().zip(&new) {
        impulses(p).into_iter().for_each(word);
        let copied = impulses(p) != impulses(new);
        reach(match (by, copied) {
            (Matching::ByNumber, false) => "impulses left",
            (Matching::ByNumber, true) => "impulses copied",
            (Matching::ByPlace, false) => "by place: impulses left",
            (Matching::ByPlace, true) => "by place: impulses copied",
        });
    }
    println!();
}

const BRANCHES: [&str; 21] = [
    "by place: impulses copied",
    "by place: impulses left",
    "impulses copied",
    "impulses left",
    "matched by anchors crossed, a feature unknown",
    "matched by anchors crossed, features known",
    "matched by anchors straight, a feature unknown",
    "matched by features 0 and 0",
    "matched by features crossed",
    "matched by features straight",
    "matched by features, one 0",
    "not matched: a feature unknown",
    "not matched: anchors near, features known",
    "not matched: features known",
    "pruned to four points",
    "pruned to three, one above",
    "pruned to three, one below",
    "pruned to two points",
    "side value 0",
    "side value NaN",
    "side value not further",
];

fn match_cases(many: &str, one: &str, by: Matching) {
    for c in 0..1000 {
        let count = draw(draw(c, 1), 5) % (MANIFOLDS as u32 + 1);
        match_case(c, many, count, by);
    }
    for c in 1000..1300 {
        match_case(c, one, 1, by);
    }
}

fn main() {
    (0..1000).for_each(prune_case);
    match_cases("match", "match_one", Matching::ByNumber);
    match_cases("match_place", "match_one_place", Matching::ByPlace);
    let counts = Counts::taken();
    counts.at_least(10, BRANCHES);
    counts.at_least(10, ByPlace::of_points());
}
