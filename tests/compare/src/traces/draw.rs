//! A trace that can be read, nearly always: additions and goes on a few colliders, each of a body, that mostly touch.

use super::{Trace, text};
use crate::draws::{Rng, StepSettings, Style};
use crate::sides::Against;
use reference::layout::*;
use reference::trace::CAPACITY;
use reference::*;

type Pair = (u32, u32);

struct Draw<'a> {
    rng: &'a mut Rng,
    text: Vec<u8>,
    /// The numbers of the colliders, and of the body that each mostly belongs to.
    numbers: Vec<(u32, u32)>,
    colliders: Vec<Option<ColliderQuery>>,
    bodies: Vec<Option<RigidBodyQuery>>,
    settings: StepSettings,
    /// The pairs that an addition named, in its order.
    pairs: Vec<Pair>,
    large: bool,
    against: Against,
}

pub fn trace(rng: &mut Rng, against: Against, large: bool) -> Trace {
    let capacity = match (large, rng.one_in(2)) {
        (true, _) => rng.of(&[64, 65, 130, MOST_CONTACTS]),
        (false, true) => CAPACITY,
        (false, false) => 1 + rng.below(2 * CAPACITY),
    };
    let mut draw = Draw::new(rng, against, large);
    draw.whole();
    Trace {
        text: draw.text,
        capacity,
    }
}

impl<'a> Draw<'a> {
    fn new(rng: &'a mut Rng, against: Against, large: bool) -> Self {
        let count = if large { 13 } else { 3 } + rng.below(4);
        let mut colliders: Vec<u32> = (0..COLLIDERS as u32).collect();
        let mut bodies: Vec<u32> = (0..BODIES as u32).collect();
        rng.shuffle(&mut colliders);
        rng.shuffle(&mut bodies);
        let settings = rng.settings();
        let mut draw = Self {
            text: vec![],
            numbers: colliders.into_iter().zip(bodies).take(count).collect(),
            colliders: vec![None; count],
            bodies: vec![None; count],
            settings,
            pairs: vec![],
            large,
            against,
            rng,
        };
        (0..count).for_each(|k| draw.draw_one(k));
        draw
    }

    fn whole(&mut self) {
        let additions = if self.large { 100 } else { 2 };
        for _ in 0..additions {
            let line = self.addition();
            self.text.extend(line);
        }
        let goes = match self.large {
            true => 3,
            false => 2 + self.rng.below(12),
        };
        (0..goes).for_each(|_| self.go());
        match self.rng.below(6) {
            0 => {
                let line = self.addition();
                self.text.extend(line);
            }
            1 => {
                let blocks = self.blocks();
                self.text.extend(blocks.concat());
            }
            _ => {}
        }
    }

    // ---- The world.

    fn draw_one(&mut self, k: usize) {
        self.bodies[k] = self.any_body();
        self.colliders[k] = self.any_collider(k);
    }

    fn any_body(&mut self) -> Option<RigidBodyQuery> {
        let style = self.rng.style();
        self.rng.body(style)
    }

    fn any_collider(&mut self, k: usize) -> Option<ColliderQuery> {
        let (_, body) = self.numbers[k];
        let other = self.rng.of(&self.numbers).1;
        let style = self.rng.style();
        let position = self.bodies[k].map(|body| body.position);
        self.rng.collider(style, body, other, position)
    }

    /// Kept as it was, or in part drawn anew, or the bodies moved a little.
    fn draw_world(&mut self) {
        if self.rng.one_in(8) {
            self.settings = self.rng.settings();
        }
        let one = self.rng.below(self.numbers.len());
        match self.rng.below(16) {
            0 => (0..self.numbers.len()).for_each(|k| self.draw_one(k)),
            1 | 2 => self.draw_one(one),
            3..=5 => self.colliders[one] = self.any_collider(one),
            6..=10 => {
                for body in self.bodies.iter_mut().flatten() {
                    self.rng.move_body(body, false);
                }
            }
            _ => {}
        }
    }

    // ---- Lines.

    /// Of the trace's colliders, seldom another.
    fn collider(&mut self) -> (u32, u32) {
        match self.rng.one_in(80) {
            true => (self.rng.below(COLLIDERS) as u32, 0),
            false => self.rng.of(&self.numbers),
        }
    }

    fn any_pair(&mut self) -> Pair {
        (self.collider().0, self.collider().0)
    }

    /// Mostly one that an addition named.
    fn pair(&mut self) -> Pair {
        match self.pairs.is_empty() || self.rng.one_in(5) {
            true => self.any_pair(),
            false => self.rng.of(&self.pairs),
        }
    }

    fn addition(&mut self) -> Vec<u8> {
        let [first, second] = [self.collider(), self.collider()];
        let named = |rng: &mut Rng, body: u32| (!rng.one_in(5)).then_some(Entity(body));
        let addition = Addition {
            collider1: Entity(first.0),
            collider2: Entity(second.0),
            body1: named(self.rng, first.1),
            body2: named(self.rng, second.1),
            contact_events: !self.rng.one_in(5),
            modify_contacts: self.rng.one_in(3),
            speculative_distance: self.rng.speculative_distance(),
        };
        if !self.pairs.contains(&(first.0, second.0)) {
            self.pairs.push((first.0, second.0));
        }
        text::addition(self.rng, &addition)
    }

    /// Those of a collider or body, at times with another for the same number.
    fn records(&mut self, k: usize, blocks: &mut Vec<Vec<u8>>) {
        let (collider, body) = self.numbers[k];
        let mut colliders = vec![self.colliders[k]];
        let mut bodies = vec![self.bodies[k]];
        if self.rng.one_in(16) {
            colliders.push(self.any_collider(k));
        }
        if self.rng.one_in(16) {
            bodies.push(self.any_body());
        }
        for c in colliders.iter().flatten() {
            blocks.push(text::collider(self.rng, collider, c));
        }
        for b in bodies.iter().flatten() {
            blocks.push(text::body(self.rng, body, b));
        }
    }

    fn settings(&mut self, blocks: &mut Vec<Vec<u8>>) {
        if !self.rng.one_in(80) {
            blocks.push(self.stated(self.settings));
        }
        if self.rng.one_in(12) {
            let other = self.rng.settings();
            blocks.push(self.stated(other));
        }
    }

    fn stated(&mut self, mut settings: StepSettings) -> Vec<u8> {
        settings.matching = text::matching(self.rng, self.against);
        text::settings(self.rng, &settings)
    }

    fn point_count(&mut self) -> usize {
        match self.rng.below(96) {
            0 => PROPOSED_POINTS,
            1 | 2 => self.rng.many_points(),
            3..=6 => self.rng.few_points(),
            _ => 1 + self.rng.below(2),
        }
    }

    fn manifolds(&mut self, pair: Pair, count: usize, blocks: &mut Vec<Vec<u8>>) {
        let (style, features) = (self.rng.style(), self.rng.below(4));
        for _ in 0..count {
            let points = self.point_count();
            let manifold = self.rng.manifold(points, style, features);
            blocks.push(text::manifold(self.rng, pair, &manifold));
        }
    }

    fn proposals(&mut self, blocks: &mut Vec<Vec<u8>>) {
        for pair in self.pairs.clone() {
            let count = match self.rng.below(16) {
                0 => 1 + self.rng.below(MANIFOLDS),
                1..=3 => 0,
                4..=10 => 1,
                _ => 2,
            };
            self.manifolds(pair, count, blocks);
        }
        if self.rng.one_in(3) {
            let pair = self.any_pair();
            self.manifolds(pair, 1, blocks);
        }
        if self.rng.one_in(24) {
            self.too_much(blocks);
        }
    }

    /// Too many manifolds of a pair, or too many points.
    fn too_much(&mut self, blocks: &mut Vec<Vec<u8>>) {
        let pair = self.pair();
        if self.rng.one_in(2) {
            return self.manifolds(pair, MANIFOLDS + 1, blocks);
        }
        let points = self.rng.too_many_points();
        let manifold = self.rng.manifold(points, Style::Coarse, 0);
        blocks.push(text::manifold(self.rng, pair, &manifold));
    }

    fn hooks(&mut self, blocks: &mut Vec<Vec<u8>>) {
        for _ in 0..self.rng.below(4) {
            let (pair, answer) = (self.pair(), self.rng.one_in(2));
            blocks.push(text::hook(self.rng, pair, answer));
        }
    }

    /// What stands before a go, in any order.
    fn blocks(&mut self) -> Vec<Vec<u8>> {
        let mut blocks = vec![];
        self.settings(&mut blocks);
        (0..self.numbers.len()).for_each(|k| self.records(k, &mut blocks));
        self.hooks(&mut blocks);
        self.proposals(&mut blocks);
        for _ in 0..self.rng.below(3) {
            blocks.push(self.addition());
        }
        self.rng.shuffle(&mut blocks);
        if self.rng.one_in(120) {
            self.addition_below_manifold(&mut blocks);
        }
        blocks
    }

    /// Between a manifold and its points.
    fn addition_below_manifold(&mut self, blocks: &mut [Vec<u8>]) {
        let addition = self.addition();
        let with_points = |block: &&mut Vec<u8>| block[0] == b'M' && text::lines(block).count() > 1;
        if let Some(block) = blocks.iter_mut().find(with_points) {
            let first = text::lines(block).next().map_or(0, <[u8]>::len);
            block.splice(first..first, addition);
        }
    }

    fn go(&mut self) {
        self.draw_world();
        let blocks = self.blocks();
        self.text.extend(blocks.concat());
        self.text.extend(b"G\n");
    }
}
