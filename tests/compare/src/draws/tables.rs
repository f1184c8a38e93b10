//! Awkward values beside ordinary ones: zeros of both signs, subnormal numbers, infinities, NaN and the limits of comparisons.

use reference::{Quat, Vec3, quat, vec3};

const NAN: f32 = f32::NAN;
const INF: f32 = f32::INFINITY;
const LEAST: f32 = f32::from_bits(1);

pub const AWKWARD: [f32; 18] = [
    NAN,
    f32::from_bits(0xffc0_0001),
    f32::from_bits(0x7f80_0001),
    INF,
    -INF,
    0.0,
    -0.0,
    LEAST,
    f32::from_bits(0x807f_ffff),
    f32::MIN_POSITIVE,
    f32::MAX,
    f32::MIN,
    3.0e18,
    -3.0e18,
    1.0e-20,
    1.0e6,
    -1.0e-6,
    1.0,
];

pub const TIMES: [f32; 16] = [
    0.015_625,
    0.015_625,
    0.015_625,
    0.016_666_668,
    0.016_666_668,
    0.3,
    0.1,
    0.1,
    0.07,
    1.0,
    1.0,
    0.0,
    -0.015_625,
    INF,
    -0.0,
    NAN,
];

pub const UNITS: [f32; 16] = [
    1.0, 1.0, 1.0, 1.0, 1.0, 1.0, 1.0, 2.0, 2.0, 0.5, 0.5, 100.0, 0.0, -1.0, NAN, INF,
];

pub const TOLERANCES: [f32; 16] = [
    0.005, 0.005, 0.005, 0.005, 0.005, 0.05, 0.05, 0.05, 0.05, 0.5, 0.5, 0.5, 0.0, -0.0, -0.01, NAN,
];

pub const DISTANCES: [f32; 16] = [
    0.05, 0.05, 0.05, 0.5, 0.5, 0.5, 0.5, 1.0, 1.0, 0.2, 0.2, 0.2, 0.0, -0.1, NAN, INF,
];

/// Squared cosines of half an angle.
pub const COSINES: [f32; 12] = [
    0.99, 0.99, 0.99, 0.99, 0.9, 0.9, 0.9, 0.5, 0.64, 1.0, 0.25, 0.0,
];

pub const COEFFICIENTS: [f32; 16] = [
    0.5,
    0.5,
    0.25,
    0.75,
    0.3,
    1.0,
    2.0,
    0.1,
    0.500_000_06,
    0.0,
    -0.0,
    0.0,
    -0.5,
    1.0e-40,
    INF,
    NAN,
];

pub const MARGINS: [f32; 16] = [
    0.01, 0.01, 0.01, 0.1, 0.1, 0.1, 0.004, 0.004, 0.004, 0.5, 0.5, 0.0, -0.0, -0.05, INF, NAN,
];

pub const ROTATIONS: [Quat; 8] = [
    quat(0.0, 0.0, 0.0, 1.0),
    quat(0.0, 0.0, 0.0, 1.0),
    quat(0.0, 0.0, 0.0, 1.0),
    quat(0.6, 0.0, 0.0, 0.8),
    quat(0.0, 0.0, 0.707_106_77, 0.707_106_77),
    quat(0.5, 0.5, 0.5, 0.5),
    quat(0.0, 1.0, 0.0, 0.0),
    // Not a unit.
    quat(0.1, 0.2, -0.3, 0.9),
];

/// At 0.3 m/s and 1/64 s and so on some of these are just met.
pub const MAXIMA: [f32; 16] = [
    0.1,
    0.1,
    0.013,
    1.0,
    10.0,
    0.01,
    0.017,
    0.0,
    -0.0,
    f32::MAX,
    f32::MAX,
    f32::MAX,
    INF,
    NAN,
    NAN,
    -1.0,
];

pub const RADII: [f32; 16] = [
    1.0, 1.0, 1.0, 1.0, 0.5, 0.5, 0.5, 2.0, 2.0, 0.1, 0.1, 0.1, 0.0, INF, NAN, -1.0,
];

/// Lower and upper ends on an axis, where a box is not from -1 to 1: apart by 1.5, by 1, touching on either side, apart by 1.25,
/// NaN, infinite, lower above upper.
pub const ENDS: [(f32, f32); 8] = [
    (2.5, 4.0),
    (2.0, 3.0),
    (1.0, 3.0),
    (-3.0, -1.0),
    (-4.0, -2.25),
    (NAN, 1.0),
    (-INF, INF),
    (1.0, -1.0),
];

pub const MEMBERSHIPS: [u32; 8] = [1, 1, 3, 5, 9, 0x8000_0001, u32::MAX, 2];
pub const FILTERS: [u32; 8] = [
    u32::MAX,
    u32::MAX,
    u32::MAX,
    u32::MAX,
    u32::MAX,
    u32::MAX,
    0x8000_0003,
    0xffff_fffe,
];

/// 0.1, the matching distance, and the floats beside it.
pub const OFFSETS: [f32; 8] = [0.0, 0.0, 0.1, 0.05, 0.099_999_994, 0.100_000_01, -0.1, 0.5];

pub const PENETRATIONS: [f32; 16] = [
    -0.004, -0.005, -0.01, -0.02, -0.05, -0.1, -0.5, 0.01, 0.1, 0.5, 0.0, -0.0, 1.0, -2.0, -0.25,
    NAN,
];

pub const NORMALS: [Vec3; 8] = [
    vec3(0.0, 0.0, 1.0),
    vec3(0.0, 0.0, 1.0),
    vec3(0.0, 1.0, 0.0),
    vec3(0.6, 0.0, 0.8),
    vec3(0.0, -1.0, 0.0),
    vec3(1.0, 0.0, 0.0),
    vec3(0.577_350_26, 0.577_350_26, 0.577_350_26),
    vec3(0.0, 0.0, 0.0),
];

pub const SPECULATIVE: [f32; 16] = [
    0.0, 0.0, 0.0, 0.0, 0.0, 0.1, 0.1, 1.0, 1.0, 1.0, 2.0, -0.5, -0.0, 0.004, INF, NAN,
];

pub const MOVES: [f32; 8] = [0.001, -0.002, 0.004, 0.01, -0.02, 0.04, 0.1, 0.5];
