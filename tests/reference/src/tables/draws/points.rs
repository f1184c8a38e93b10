//! Points and manifolds, proposed and stored, and speculative distances.

use super::{draw, float, one_in, style};
use crate::layout::*;

/// 0, 0.1, 0.05, the floats beside 0.1, -0.1, 0.5.
pub const OFFSETS: [u32; 8] = [
    0x00000000, 0x00000000, 0x3dcccccd, 0x3d4ccccd, 0x3dcccccc, 0x3dccccce, 0xbdcccccd, 0x3f000000,
];

/// -0.004, -0.005, -0.01, -0.02, -0.05, -0.1, -0.5, 0.01, 0.1, 0.5, 0, -0, 1, -2, -0.25, NaN.
const PENETRATIONS: [u32; 16] = [
    0xbb83126f, 0xbba3d70a, 0xbc23d70a, 0xbca3d70a, 0xbd4ccccd, 0xbdcccccd, 0xbf000000, 0x3c23d70a,
    0x3dcccccd, 0x3f000000, 0x00000000, 0x80000000, 0x3f800000, 0xc0000000, 0xbe800000, 0x7fc00000,
];

/// Three floats each, one by its own draws.
const NORMALS: [u32; 24] = [
    0, 0, 0x3f800000, 0, 0, 0x3f800000, 0, 0x3f800000, 0, 0x3f19999a, 0, 0x3f4ccccd, 0, 0xbf800000,
    0, 0x3f800000, 0, 0, 0x3f13cd3a, 0x3f13cd3a, 0x3f13cd3a, 0, 0, 0,
];

pub fn normal(owner: u32, j: usize, style: u32) -> u32 {
    let d = draw(owner, 70) % 8;
    if d == 7 {
        float(owner, 71 + j, style)
    } else {
        NORMALS[d as usize * 3 + j]
    }
}

/// In coarse cases a grid with small offsets.
pub fn anchor(owner: u32, j: usize, style: u32) -> u32 {
    let d = draw(owner, j);
    match (style, j % 3) {
        (0, 0) => OFFSETS[(d % 2 * 7) as usize],
        (0, 1) => OFFSETS[(d % 8) as usize],
        (0, _) => OFFSETS[(d % 3) as usize],
        _ => float(owner, j, style),
    }
}

pub fn penetration(owner: u32, slot: usize, style: u32) -> u32 {
    let d = draw(owner, slot);
    if d % 2 == 0 {
        PENETRATIONS[(d / 2 % 16) as usize]
    } else {
        float(owner, 100 + slot, style)
    }
}

/// Few features, unknown ones among them; many; many and unknown ones; few known ones.
pub fn feature(case: u32, owner: u32, slot: usize) -> u32 {
    let d = draw(owner, slot);
    match draw(case, 3) % 4 {
        0 => d % 5 / 2 * 0x40000001,
        1 => 0xc0000000 + d % 50,
        2 if d % 3 == 0 => 0,
        2 => 0x40000000 + d % 50,
        _ => 1 + d % 5,
    }
}

fn proposed_point_word(case: u32, owner: u32, j: usize) -> u32 {
    match j {
        PROPOSED_POINT_ANCHOR1..PROPOSED_POINT_POSITION => anchor(owner, j, style(case)),
        PROPOSED_POINT_POSITION..PROPOSED_POINT_PENETRATION => float(owner, j, style(case)),
        PROPOSED_POINT_PENETRATION => penetration(owner, j, style(case)),
        PROPOSED_POINT_FEATURES.. => feature(case, owner, j),
    }
}

/// A number of points, d being a draw: up to as many as are stored.
pub fn few_points(d: u32) -> u32 {
    d % (STORED_POINTS as u32 + 1)
}

/// More than are stored, up to as many as are proposed.
pub fn many_points(d: u32) -> u32 {
    STORED_POINTS as u32 + 1 + d % (PROPOSED_POINTS - STORED_POINTS) as u32
}

/// Many in one of four, and the most in one of sixteen, else few.
fn proposed_count(owner: u32) -> u32 {
    let d = draw(owner, PROPOSED_MANIFOLD_COUNT);
    match d % 16 {
        0 => PROPOSED_POINTS as u32,
        1..=4 => many_points(d / 16),
        _ => few_points(d / 16),
    }
}

fn proposed_manifold_word(case: u32, owner: u32, r: usize) -> u32 {
    match r {
        PROPOSED_MANIFOLD_COUNT => proposed_count(owner),
        PROPOSED_MANIFOLD_NORMAL..PROPOSED_MANIFOLD_POINTS => {
            normal(owner, r - PROPOSED_MANIFOLD_NORMAL, style(case))
        }
        PROPOSED_MANIFOLD_POINTS.. => {
            let k = r - PROPOSED_MANIFOLD_POINTS;
            let point = draw(owner, 100 + k / PROPOSED_POINT_SIZE);
            proposed_point_word(case, point, k % PROPOSED_POINT_SIZE)
        }
    }
}

/// Up to the most, seldom 0.
fn manifold_count(owner: u32) -> u32 {
    let d = draw(owner, PROPOSAL_COUNT);
    if d % 12 == 0 {
        0
    } else {
        1 + d / 12 % MANIFOLDS as u32
    }
}

/// Places past a count are filled too.
pub fn proposal_word(case: u32, i: usize) -> u32 {
    let owner = draw(case, 50);
    match i {
        PROPOSAL_HOOK => one_in(owner, i, 2),
        PROPOSAL_COUNT => manifold_count(owner),
        PROPOSAL_MANIFOLDS.. => {
            let k = i - PROPOSAL_MANIFOLDS;
            let manifold = draw(owner, 100 + k / PROPOSED_MANIFOLD_SIZE);
            proposed_manifold_word(case, manifold, k % PROPOSED_MANIFOLD_SIZE)
        }
    }
}

/// 0, 0.1, 1, 2, -0.5, -0, 0.004, infinite, NaN.
pub const SPECULATIVE: [u32; 16] = [
    0x00000000, 0x00000000, 0x00000000, 0x00000000, 0x00000000, 0x3dcccccd, 0x3dcccccd, 0x3f800000,
    0x3f800000, 0x3f800000, 0x40000000, 0xbf000000, 0x80000000, 0x3b83126f, 0x7f800000, 0x7fc00000,
];
