//! Seeded draws of what a list's calls are given.

mod points;
mod tables;
mod world;

pub use world::StepSettings;

use reference::{Vec3, vec3};
use tables::AWKWARD;

/// SplitMix64.
#[derive(Clone, Debug)]
pub struct Rng(u64);

impl Rng {
    pub fn new(seed: u64, list: u64) -> Self {
        let mut rng = Self(seed ^ list.wrapping_mul(0x9e37_79b9_7f4a_7c15));
        rng.draw();
        rng.draw();
        rng
    }

    /// From a place of its own: by the number alone, there are few sequences, each beginning one draw later than the last.
    pub fn apart(seed: u64, number: u64) -> Self {
        let mut rng = Self::new(seed, number);
        let [high, low] = [rng.word(), rng.word()].map(u64::from);
        Self::new(high << 32 | low, number)
    }

    fn draw(&mut self) -> u64 {
        self.0 = self.0.wrapping_add(0x9e37_79b9_7f4a_7c15);
        let mut z = self.0;
        z = (z ^ (z >> 30)).wrapping_mul(0xbf58_476d_1ce4_e5b9);
        z = (z ^ (z >> 27)).wrapping_mul(0x94d0_49bb_1331_11eb);
        z ^ (z >> 31)
    }

    pub fn word(&mut self) -> u32 {
        (self.draw() >> 32) as u32
    }

    pub fn below(&mut self, n: usize) -> usize {
        ((u64::from(self.word()) * n as u64) >> 32) as usize
    }

    pub fn one_in(&mut self, n: usize) -> bool {
        self.below(n) == 0
    }

    pub fn of<T: Copy>(&mut self, values: &[T]) -> T {
        values[self.below(values.len())]
    }

    pub fn shuffle<T>(&mut self, values: &mut [T]) {
        for k in (1..values.len()).rev() {
            let other = self.below(k + 1);
            values.swap(k, other);
        }
    }
}

/// Where floats are drawn from.
#[derive(Clone, Copy, Debug, PartialEq, Eq)]
pub enum Style {
    /// -2 to 2 in halves, so that equal values come up.
    Coarse,
    /// Of either sign, from 2^-7 to 2.
    Common,
    /// One in eight awkward.
    Awkward,
}

impl Rng {
    pub fn style(&mut self) -> Style {
        self.of(&[
            Style::Coarse,
            Style::Coarse,
            Style::Coarse,
            Style::Coarse,
            Style::Common,
            Style::Common,
            Style::Common,
            Style::Awkward,
        ])
    }

    pub fn float(&mut self, style: Style) -> f32 {
        match style {
            Style::Coarse => self.below(9) as f32 * 0.5 - 2.0,
            Style::Awkward if self.one_in(8) => self.of(&AWKWARD),
            Style::Common | Style::Awkward => {
                let d = self.word();
                f32::from_bits(d & 0x807f_ffff | (120 + (d >> 23) % 8) << 23)
            }
        }
    }

    /// Any bits.
    pub fn any_float(&mut self) -> f32 {
        f32::from_bits(self.word())
    }

    pub fn vector(&mut self, style: Style) -> Vec3 {
        vec3(self.float(style), self.float(style), self.float(style))
    }
}
