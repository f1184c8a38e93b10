//! Settings, colliders and bodies, word by word.

use super::{draw, float, one_in, style};
use crate::layout::*;

// ---- Settings.

/// 1/64, 1/60, 0.3, 0.1, 0.07, 1, 0, -1/64, infinite, NaN.
const TIMES: [u32; 16] = [
    0x3c800000, 0x3c800000, 0x3c800000, 0x3c888889, 0x3c888889, 0x3e99999a, 0x3dcccccd, 0x3dcccccd,
    0x3d8f5c29, 0x3f800000, 0x3f800000, 0x00000000, 0xbc800000, 0x7f800000, 0x7f800000, 0x7fc00000,
];

/// 1, 2, 0.5, 100, 0, -1, NaN, infinite.
const UNITS: [u32; 16] = [
    0x3f800000, 0x3f800000, 0x3f800000, 0x3f800000, 0x3f800000, 0x3f800000, 0x3f800000, 0x40000000,
    0x40000000, 0x3f000000, 0x3f000000, 0x42c80000, 0x00000000, 0xbf800000, 0x7fc00000, 0x7f800000,
];

/// 0.005, 0.05, 0.5, 0, -0.01, NaN.
const TOLERANCES: [u32; 16] = [
    0x3ba3d70a, 0x3ba3d70a, 0x3ba3d70a, 0x3ba3d70a, 0x3ba3d70a, 0x3d4ccccd, 0x3d4ccccd, 0x3d4ccccd,
    0x3d4ccccd, 0x3f000000, 0x3f000000, 0x3f000000, 0x3f000000, 0x00000000, 0xbc23d70a, 0x7fc00000,
];

/// 0.05, 0.5, 1, 0.2, 0, -0.1, NaN, infinite.
const DISTANCES: [u32; 16] = [
    0x3d4ccccd, 0x3d4ccccd, 0x3d4ccccd, 0x3f000000, 0x3f000000, 0x3f000000, 0x3f000000, 0x3f800000,
    0x3f800000, 0x3e4ccccd, 0x3e4ccccd, 0x3e4ccccd, 0x00000000, 0xbdcccccd, 0x7fc00000, 0x7f800000,
];

/// 0.99, 0.9, 0.5, 0.8 squared, 1, 0.25, 0, -1, NaN.
const COSINES: [u32; 16] = [
    0x3f7d70a4, 0x3f7d70a4, 0x3f7d70a4, 0x3f7d70a4, 0x3f666666, 0x3f666666, 0x3f666666, 0x3f000000,
    0x3f000000, 0x3f23d70b, 0x3f23d70b, 0x3f800000, 0x3e800000, 0x00000000, 0xbf800000, 0x7fc00000,
];

/// 0.5, 0.25, 0.75, 0.3, 1, 2, 0.1, 0, -0, -0.5, a subnormal, infinite, NaN.
const COEFFICIENTS: [u32; 16] = [
    0x3f000000, 0x3f000000, 0x3e800000, 0x3f400000, 0x3e99999a, 0x3f800000, 0x40000000, 0x3dcccccd,
    0x3f000000, 0x3f000001, 0x00000000, 0x80000000, 0xbf000000, 0x000116c2, 0x7f800000, 0x7fc00000,
];

fn coefficient(owner: u32, slot: usize) -> u32 {
    COEFFICIENTS[(draw(owner, slot) % 16) as usize]
}

fn rule(owner: u32, slot: usize) -> u32 {
    1 + draw(owner, slot) % RULES as u32
}

/// Matching is named by number: the Rust's.
pub fn setting_word(case: u32, i: usize) -> u32 {
    let owner = draw(case, 30);
    let k = (draw(owner, i) % 16) as usize;
    match i {
        SETTINGS_STEP_TIME => TIMES[k],
        SETTINGS_LENGTH_UNIT => UNITS[k],
        SETTINGS_CONTACT_TOLERANCE => TOLERANCES[k],
        SETTINGS_RECYCLE_DISTANCE => DISTANCES[k],
        SETTINGS_RECYCLE_COSINE => COSINES[k],
        SETTINGS_MATCH_CONTACTS => 1 - one_in(owner, i, 4),
        SETTINGS_FRICTION | SETTINGS_RESTITUTION => coefficient(owner, i),
        SETTINGS_FRICTION_RULE | SETTINGS_RESTITUTION_RULE => rule(owner, i),
        SETTINGS_MATCHING => 1,
        SETTINGS_MATCHING_VALUE => 0,
        SETTINGS_LENGTH.. => unreachable!(),
    }
}

// ---- What colliders and bodies share.

/// The word at place i of a mark, a coefficient, a rule: a rule behind a mark of 0 is any word.
fn coefficient_word(owner: u32, mark: usize, i: usize) -> u32 {
    match i - mark {
        0 => one_in(owner, mark, 2),
        1 => coefficient(owner, i),
        _ if one_in(owner, mark, 2) == 0 => draw(owner, i),
        _ => rule(owner, i),
    }
}

/// 0.01, 0.1, 0.004, 0.5, 0, -0.05, infinite, NaN.
const MARGINS: [u32; 16] = [
    0x3c23d70a, 0x3c23d70a, 0x3c23d70a, 0x3dcccccd, 0x3dcccccd, 0x3dcccccd, 0x3b83126f, 0x3b83126f,
    0x3b83126f, 0x3f000000, 0x3f000000, 0x00000000, 0xbd4ccccd, 0xbd4ccccd, 0x7f800000, 0x7fc00000,
];

fn margin_word(owner: u32, mark: usize, i: usize) -> u32 {
    match i - mark {
        0 => one_in(owner, mark, 3),
        _ => MARGINS[(draw(owner, i) % 16) as usize],
    }
}

// ---- Bodies.

/// Neither body is there.
fn lone(case: u32) -> bool {
    draw(case, 4) % 24 == 0
}

/// Four floats each: the identity, about x by 0.6 and 0.8, a quarter about z, a third about the diagonal, a half about y, not a unit.
const ROTATIONS: [u32; 32] = [
    0x00000000, 0x00000000, 0x00000000, 0x3f800000, 0x00000000, 0x00000000, 0x00000000, 0x3f800000,
    0x00000000, 0x00000000, 0x00000000, 0x3f800000, 0x3f19999a, 0x00000000, 0x00000000, 0x3f4ccccd,
    0x00000000, 0x00000000, 0x3f3504f3, 0x3f3504f3, 0x3f000000, 0x3f000000, 0x3f000000, 0x3f000000,
    0x00000000, 0x3f800000, 0x00000000, 0x00000000, 0x3dcccccd, 0x3e4ccccd, 0xbe99999a, 0x3f666666,
];

pub fn rotation(owner: u32, slot: usize, j: usize) -> u32 {
    ROTATIONS[(draw(owner, slot) / 8 % 8 * 4) as usize + j]
}

/// 0.1, 0.013, 1, 10, 0.01, 0.017, 0, f32's largest, infinite, NaN, -1.
const MAXIMA: [u32; 16] = [
    0x3dcccccd, 0x3dcccccd, 0x3c54fdf4, 0x3f800000, 0x41200000, 0x3c23d70a, 0x3c8b4396, 0x00000000,
    0x00000000, 0x7f7fffff, 0x7f7fffff, 0x7f7fffff, 0x7f800000, 0x7fc00000, 0x7fc00000, 0xbf800000,
];

/// 1, 0.5, 2, 0.1, 0, infinite, NaN, -1.
const RADII: [u32; 16] = [
    0x3f800000, 0x3f800000, 0x3f800000, 0x3f800000, 0x3f000000, 0x3f000000, 0x3f000000, 0x40000000,
    0x40000000, 0x3dcccccd, 0x3dcccccd, 0x3dcccccd, 0x00000000, 0x7f800000, 0x7fc00000, 0xbf800000,
];

fn rotation_word(owner: u32, i: usize, style: u32) -> u32 {
    if style == 2 && draw(owner, BODY_ROTATION) % 8 == 0 {
        float(owner, 40 + i, 2)
    } else {
        rotation(owner, BODY_ROTATION, i - BODY_ROTATION)
    }
}

/// Position, rotation, centre of mass (half of them 0), velocities.
fn motion_word(owner: u32, i: usize, style: u32) -> u32 {
    match i {
        BODY_ROTATION..BODY_CENTER_OF_MASS => rotation_word(owner, i, style),
        BODY_CENTER_OF_MASS..BODY_LINEAR_VELOCITY if draw(owner, 60) % 2 == 0 => 0,
        _ => float(owner, i, style),
    }
}

fn maximum_word(owner: u32, i: usize) -> u32 {
    match i {
        BODY_SPECULATIVE_MAXIMUM => one_in(owner, i, 2),
        _ => MAXIMA[(draw(owner, i) % 16) as usize],
    }
}

pub fn body_word(case: u32, n: usize, i: usize) -> u32 {
    let owner = draw(case, 20 + n);
    match i {
        PRESENCE if lone(case) => 0,
        PRESENCE => 1 - one_in(owner, i, 16),
        BODY_STATIC => one_in(owner, i, 4),
        BODY_POSITION..BODY_FRICTION => motion_word(owner, i, style(case)),
        BODY_FRICTION..BODY_MARGIN => coefficient_word(owner, BODY_FRICTION, i),
        BODY_MARGIN..BODY_SPECULATIVE_MAXIMUM => margin_word(owner, BODY_MARGIN, i),
        BODY_SPECULATIVE_MAXIMUM..BODY_SWEEP_RADIUS => maximum_word(owner, i),
        BODY_SWEEP_RADIUS => RADII[(draw(owner, i) % 16) as usize],
        BODY_SIZE.. => unreachable!(),
    }
}

// ---- Colliders.

/// Lower and upper ends on an axis: apart by 1.5, by 1, touching on either side, apart by 1.25, NaN, infinite, lower above upper.
const LOWER: [u32; 8] = [
    0x40200000, 0x40000000, 0x3f800000, 0xc0400000, 0xc0800000, 0x7fc00000, 0xff800000, 0x3f800000,
];

const UPPER: [u32; 8] = [
    0x40800000, 0x40400000, 0x40400000, 0xbf800000, 0xc0100000, 0x3f800000, 0x7f800000, 0xbf800000,
];

/// From -1 to 1 on most axes.
fn box_word(owner: u32, axis: usize, upper: bool) -> u32 {
    let d = draw(owner, COLLIDER_LOWER + axis) % 160;
    match (d < 8, upper) {
        (false, false) => 0xbf800000,
        (false, true) => 0x3f800000,
        (true, false) => LOWER[d as usize],
        (true, true) => UPPER[d as usize],
    }
}

const MEMBERSHIPS: [u32; 8] = [1, 1, 3, 5, 9, 0x80000001, 0xffffffff, 2];

const FILTERS: [u32; 8] = [
    0xffffffff, 0xffffffff, 0xffffffff, 0xffffffff, 0xffffffff, 0xffffffff, 0x80000003, 0xfffffffe,
];

/// At times none.
fn layers_word(owner: u32, i: usize) -> u32 {
    let d = draw(owner, i);
    match (d % 64, i) {
        (0, _) => 0,
        (_, COLLIDER_MEMBERSHIPS) => MEMBERSHIPS[(d / 64 % 8) as usize],
        _ => FILTERS[(d / 64 % 8) as usize],
    }
}

/// Its own, at times the other's or one that is absent; behind a mark of 0 any word.
fn body_number(owner: u32, n: usize) -> u32 {
    let d = draw(owner, COLLIDER_BODY_NUMBER);
    if one_in(owner, COLLIDER_BODY, 12) == 1 {
        return d;
    }
    let number = match d % 24 {
        0 => BODIES - 1,
        1 => 1usize.saturating_sub(n),
        _ => n,
    };
    number as u32
}

/// Half of them stand where their bodies do.
fn collider_position(case: u32, n: usize, owner: u32, i: usize) -> u32 {
    if draw(owner, 61) % 2 == 0 {
        body_word(case, n, i - COLLIDER_POSITION + BODY_POSITION)
    } else {
        float(owner, i, style(case))
    }
}

pub fn collider_word(case: u32, n: usize, i: usize) -> u32 {
    let owner = draw(case, 10 + n);
    match i {
        PRESENCE => 1 - one_in(owner, i, 64),
        COLLIDER_BODY => 1 - one_in(owner, i, 12),
        COLLIDER_BODY_NUMBER => body_number(owner, n),
        COLLIDER_LOWER..COLLIDER_UPPER => box_word(owner, i - COLLIDER_LOWER, false),
        COLLIDER_UPPER..COLLIDER_POSITION => box_word(owner, i - COLLIDER_UPPER, true),
        COLLIDER_POSITION..COLLIDER_MEMBERSHIPS => collider_position(case, n, owner, i),
        COLLIDER_MEMBERSHIPS | COLLIDER_FILTERS => layers_word(owner, i),
        COLLIDER_FRICTION..COLLIDER_RESTITUTION => coefficient_word(owner, COLLIDER_FRICTION, i),
        COLLIDER_RESTITUTION..COLLIDER_MARGIN => coefficient_word(owner, COLLIDER_RESTITUTION, i),
        COLLIDER_MARGIN..COLLIDER_SENSOR => margin_word(owner, COLLIDER_MARGIN, i),
        COLLIDER_SENSOR => one_in(owner, i, 12),
        COLLIDER_SIZE.. => unreachable!(),
    }
}
