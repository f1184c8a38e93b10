//! What a list's step is given: the world, the proposals, the workers.

use super::List;
use crate::branches::reach;
use crate::damage::unread;
use crate::differences::Difference;
use crate::draws::{StepSettings, Style};
use crate::refusals::Refusals;
use crate::sides::Against;
use reference::layout::*;
use reference::{ContactId, ContactManifold, Entity, NarrowPhase, Vec3};
use sardinerod::{Shares, World};

impl List {
    pub fn draw_all(&mut self) {
        for k in 0..self.numbers.len() {
            self.draw_body(k);
            self.draw_collider(k);
        }
    }

    fn draw_collider(&mut self, k: usize) {
        let (number, body) = self.numbers[k];
        let other = self.rng.of(&self.numbers).1;
        let style = self.rng.style();
        let position: Option<Vec3> = self.sides.body(body).map(|body| body.position);
        let collider = self.rng.collider(style, body, other, position);
        self.sides.set_collider(number, collider);
        unread::collider(&mut self.rng, &mut self.sides.world, number);
    }

    fn draw_body(&mut self, k: usize) {
        let (_, number) = self.numbers[k];
        let style = self.rng.style();
        let body = self.rng.body(style);
        self.sides.set_body(number, body);
        unread::body(&mut self.rng, &mut self.sides.world, number);
    }

    /// A little, all of them; at times one of them or all wildly.
    fn move_bodies(&mut self) {
        let (one_wild, all_wild) = (self.rng.one_in(6), self.rng.one_in(24));
        let one = self.rng.below(self.numbers.len());
        for k in 0..self.numbers.len() {
            let (_, number) = self.numbers[k];
            if let Some(mut body) = self.sides.body(number).copied() {
                let wild = all_wild || one_wild && k == one;
                self.rng.move_body(&mut body, wild);
                self.sides.set_body(number, Some(body));
            }
        }
    }

    /// Against the model: by number, by place, or not named, with any word behind the mark.
    fn draw_matching(&mut self) {
        let settings = StepSettings {
            matching: self.rng.matching(),
            ..self.sides.settings
        };
        self.sides.set_settings(&settings);
        unread::settings(&mut self.rng, &mut self.sides.world);
    }

    /// Settings, colliders and bodies are kept, or some drawn anew, or the bodies moved a little.
    pub fn draw_world(&mut self) {
        if self.rng.one_in(8) {
            let settings = self.rng.settings();
            self.sides.set_settings(&settings);
        }
        if self.sides.against == Against::Model {
            self.draw_matching();
        }
        let one = self.rng.below(self.numbers.len());
        match self.rng.below(16) {
            0 => self.draw_all(),
            1..=3 => {
                self.draw_body(one);
                self.draw_collider(one);
            }
            4 | 5 => self.draw_collider(one),
            6 => self.draw_body(one),
            7..=12 => self.move_bodies(),
            _ => {}
        }
    }

    pub fn draw_proposals(&mut self) {
        for (place, id) in self.sides.active().into_iter().enumerate() {
            let hook = self.rng.one_in(2);
            let mut proposal = match self.rng.one_in(3) {
                true => self.repeated_proposal(place),
                false => self.rng.proposal(),
            };
            if self.sides.against == Against::Model && !self.rng.one_in(3) {
                self.rng.forget_features(&mut proposal);
            }
            self.sides.propose(id, hook, proposal);
            if self.rng.one_in(8) {
                unread::proposal(&mut self.rng, &mut self.sides.world, id.0);
            }
        }
    }

    /// The stored manifolds again, their points moved a little, at times crossed or with other features.
    fn repeated_proposal(&mut self, place: usize) -> Vec<ContactManifold> {
        let narrow_phase = &self.sides.narrow_phase;
        let pair = &narrow_phase.contact_graph.active_pairs[place];
        let shifts = [pair.collider1, pair.collider2].map(|collider| shift(narrow_phase, collider));
        let rng = &mut self.rng;
        pair.manifolds
            .iter()
            .map(|manifold| {
                let points = manifold.points.iter();
                let again = points.map(|point| rng.repeated_point(point, shifts));
                ContactManifold::new(again, manifold.normal)
            })
            .collect()
    }

    /// Too many manifolds, or too many points in one.
    fn propose_too_much(&mut self, id: ContactId) {
        let mut manifolds = self.rng.proposal();
        if self.rng.one_in(2) || manifolds.is_empty() {
            let count = MANIFOLDS + 1 + self.rng.below(3);
            manifolds = (0..count)
                .map(|_| self.rng.manifold(1, Style::Coarse, 0))
                .collect();
        } else {
            let points = self.rng.too_many_points();
            let m = self.rng.below(manifolds.len());
            manifolds[m] = self.rng.manifold(points, Style::Coarse, 0);
        }
        self.sides.propose(id, true, manifolds);
    }

    /// The active pairs in any order, dealt to 1 worker or more.
    pub fn workers(&mut self) -> Vec<Vec<ContactId>> {
        let mut ids = self.sides.active();
        if !self.rng.one_in(4) {
            self.rng.shuffle(&mut ids);
        }
        if ids != self.sides.active() {
            reach!("an order other than the list's");
        }
        let mut workers = vec![vec![]; 1 + self.rng.below(MOST_WORKERS)];
        for id in ids {
            let worker = self.rng.below(workers.len());
            workers[worker].push(id);
        }
        workers
    }

    /// No worker, too many, an id twice, missing, or not active, in the place of another or beside them.
    fn spoil(&mut self, workers: &mut Vec<Vec<ContactId>>) {
        let w = self.rng.below(workers.len());
        let mut ids = self.sides.active();
        ids.push(self.id_not_active());
        let id = self.rng.of(&ids);
        match self.rng.below(5) {
            0 => workers.clear(),
            1 => workers.resize(MOST_WORKERS + 1, vec![]),
            2 => workers[w].push(id),
            3 => drop(workers[w].pop()),
            _ => {
                if let Some(last) = workers[w].last_mut() {
                    *last = id;
                }
            }
        }
    }

    /// Words that are not read are any.
    pub fn shares(&mut self, workers: &[Vec<ContactId>]) -> Shares {
        let ids: Vec<Vec<sardinerod::ContactId>> = workers
            .iter()
            .map(|ids| ids.iter().map(|id| sardinerod::ContactId(id.0)).collect())
            .collect();
        let mut shares = Shares::from_workers(self.sides.capacity as u32, &ids).unwrap();
        unread::shares(&mut self.rng, &mut shares);
        shares
    }

    /// Against the model mostly on stored points with impulses: where all are 0, it does not show which of them is taken.
    pub fn step(&mut self, refusals: &mut Refusals) -> Result<(), Difference> {
        if self.sides.against == Against::Model && !self.rng.one_in(4) {
            self.write_impulses();
        }
        self.draw_world();
        self.draw_proposals();
        let active = self.sides.active();
        if !active.is_empty() && self.rng.one_in(16) {
            let id = self.rng.of(&active);
            self.propose_too_much(id);
        }
        let mut workers = self.workers();
        if self.rng.one_in(8) {
            self.spoil(&mut workers);
        }
        let shares = self.shares(&workers);
        match self.rng.below(40) {
            0 => self.step_with_stray_word(&workers, &shares, refusals),
            1 => self.step_with_other_length(&workers, &shares, refusals),
            _ => self.sides.step(&workers, &shares, refusals),
        }
    }

    /// A mark or a rule of the settings out of range, that of matching also where it is not named; the settings stay as they were.
    fn step_with_stray_word(
        &mut self,
        workers: &[Vec<ContactId>],
        shares: &Shares,
        refusals: &mut Refusals,
    ) -> Result<(), Difference> {
        let no_rule = RULES as u32 + 1;
        let (place, word) = self.rng.of(&[
            (SETTINGS_MATCH_CONTACTS, 2),
            (SETTINGS_MATCH_CONTACTS, u32::MAX),
            (SETTINGS_FRICTION_RULE, 0),
            (SETTINGS_FRICTION_RULE, no_rule),
            (SETTINGS_RESTITUTION_RULE, 0),
            (SETTINGS_RESTITUTION_RULE, no_rule),
            (SETTINGS_MATCHING, 2),
            (SETTINGS_MATCHING, u32::MAX),
            (SETTINGS_MATCHING_VALUE, 2),
            (SETTINGS_MATCHING_VALUE, u32::MAX),
        ]);
        let old = self.sides.world.settings_words()[place];
        self.sides.world.settings_words_mut()[place] = word;
        let answer = self.sides.step(workers, shares, refusals);
        self.sides.world.settings_words_mut()[place] = old;
        answer
    }

    /// Shares, or rows of the world, for another capacity.
    fn step_with_other_length(
        &mut self,
        workers: &[Vec<ContactId>],
        shares: &Shares,
        refusals: &mut Refusals,
    ) -> Result<(), Difference> {
        if self.rng.one_in(2) {
            let mut words = shares.words().to_vec();
            words.push(0);
            return self
                .sides
                .step(workers, &Shares::from_words(words), refusals);
        }
        let other = self.sides.capacity % MOST_CONTACTS + 1;
        let world = World::new(other as u32).unwrap();
        let own = std::mem::replace(&mut self.sides.world, world);
        let answer = self.sides.step(workers, shares, refusals);
        self.sides.world = own;
        answer
    }
}

/// By how much an update moves the anchors of a collider's side.
fn shift(narrow_phase: &NarrowPhase, collider: Entity) -> Vec3 {
    let collider = narrow_phase.collider_query.get(collider).ok();
    let body = collider
        .and_then(|collider| collider.of)
        .and_then(|of| narrow_phase.body_query.get(of.body).ok());
    match (collider, body) {
        (Some(collider), Some(body)) => {
            collider.position - body.position - body.rotation * body.center_of_mass
        }
        _ => Vec3::ZERO,
    }
}
