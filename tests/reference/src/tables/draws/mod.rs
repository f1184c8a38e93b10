//! The draws that crates/case_draws has too: every choice is one, by the key of what is made and the choice's number, which is a
//! word's place for most words of a record. Settings, colliders, bodies and a proposal are drawn by one key, called the case;
//! collider n and body n for n below 10.

mod points;
mod world;

pub use points::*;
pub use world::*;

pub fn seeded(seed: u32, key: u32, slot: usize) -> u32 {
    let a = (key as u64 + slot as u64 * 2654435769 + seed as u64) % 4294967296;
    let b = (a + a / 65536) * 2246822519 % 4294967296;
    let c = (b + b / 32768) * 3266489917 % 4294967296;
    ((c + c / 65536) % 4294967296) as u32
}

pub fn draw(key: u32, slot: usize) -> u32 {
    seeded(20262, key, slot)
}

/// 1 where the draw is a multiple of n.
pub fn one_in(key: u32, slot: usize, n: u32) -> u32 {
    (draw(key, slot) % n == 0) as u32
}

/// NaN, the infinities, the zeros, subnormal, huge and tiny numbers.
const AWKWARD: [u32; 16] = [
    0x7fc00000, 0x7fc00000, 0x7f800000, 0xff800000, 0x00000000, 0x80000000, 0x00000001, 0x807fffff,
    0x00800000, 0x7f7fffff, 0xff7fffff, 0x5e268890, 0xde268890, 0x1e3ce508, 0x49742400, 0xb58637bd,
];

/// -2, -1, -0.5, 0, 0.5, 1, 2.
pub const COARSE: [u32; 7] = [
    0xc0000000, 0xbf800000, 0xbf000000, 0x00000000, 0x3f000000, 0x3f800000, 0x40000000,
];

/// Of either sign, from 2^-7 to 2.
pub fn common(d: u32) -> u32 {
    d / 0x80000000 * 0x80000000 + (120 + d / 0x800000 % 8) * 0x800000 + d % 0x800000
}

/// A case's style: 0 floats are coarse, 1 common, 2 one in eight awkward.
pub fn style(case: u32) -> u32 {
    match draw(case, 1) % 8 {
        0 => 2,
        1..=4 => 0,
        _ => 1,
    }
}

pub fn float(owner: u32, slot: usize, style: u32) -> u32 {
    let d = draw(owner, slot);
    match style {
        0 => COARSE[(d % 7) as usize],
        1 => common(d),
        _ if d % 8 == 0 => AWKWARD[(d / 8 % 16) as usize],
        _ => common(d),
    }
}
