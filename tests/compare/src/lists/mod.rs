//! Random lists of calls on one contact graph, each by its number and the seed alone.

mod step;

use crate::branches::reach;
use crate::damage;
use crate::differences::Difference;
use crate::draws::Rng;
use crate::refusals::Refusals;
use crate::sides::{self, Against, Sides, reached_matching};
use reference::ContactId;
use reference::layout::*;
use sardinerod::Addition;
use std::fmt;

/// Where a list differs.
#[derive(Debug)]
pub struct Failure {
    pub call: usize,
    pub difference: Difference,
}

impl fmt::Display for Failure {
    fn fmt(&self, f: &mut fmt::Formatter<'_>) -> fmt::Result {
        write!(f, "call {}: {}", self.call, self.difference)
    }
}

struct List {
    rng: Rng,
    sides: Sides,
    /// The numbers of the colliders, and of the body that each mostly belongs to.
    numbers: Vec<(u32, u32)>,
    /// Pairs that a large list begins with, and one against the model.
    first_pairs: Vec<(u32, u32)>,
}

/// What lists have made: calls, and of those against the model the accepted steps, and those and the lists in which the two rules of
/// matching part.
#[derive(Clone, Copy, Debug, Default)]
pub struct Ran {
    pub calls: usize,
    pub steps: usize,
    pub parted_steps: usize,
    pub parted_lists: usize,
}

/// Runs list `number`.
pub fn run(
    against: Against,
    seed: u64,
    number: u64,
    ran: &mut Ran,
    refusals: &mut Refusals,
) -> Result<(), Failure> {
    let mut list = List::new(against, seed, number);
    let calls = list.length();
    for call in 0..calls {
        let steps = list.sides.steps;
        list.call(refusals)
            .and_then(|()| list.sides.compare())
            .map_err(|difference| Failure { call, difference })?;
        if list.sides.steps > steps {
            reached_matching(list.sides.world.settings_words());
        }
    }
    ran.calls += calls;
    ran.steps += list.sides.steps;
    ran.parted_steps += list.sides.parted;
    ran.parted_lists += usize::from(list.sides.parted > 0);
    Ok(())
}

/// Runs list `number`, against the model, with so many damaged calls, on copies, before each of its own.
pub fn run_damaged(
    seed: u64,
    number: u64,
    damaged: usize,
    refusals: &mut Refusals,
) -> Result<(), Failure> {
    let mut list = List::new(Against::Model, seed, number);
    let mut own = Refusals::default();
    for call in 0..list.length() {
        let result = (0..damaged)
            .try_for_each(|_| list.damaged_call(refusals))
            .and_then(|()| list.call(&mut own));
        result.map_err(|difference| Failure { call, difference })?;
    }
    Ok(())
}

/// Every 50th list is large, so that all words of status bits are reached.
fn capacity(rng: &mut Rng, number: u64) -> usize {
    if number % 50 != 7 {
        return 1 + rng.below(8);
    }
    match number / 50 % 6 {
        0 => MOST_CONTACTS,
        1 => 64,
        2 => 129,
        3 => 128,
        _ => 65 + rng.below(6),
    }
}

fn reached_capacity(capacity: usize) {
    match capacity {
        1..=8 => reach!("capacity: 1" + (capacity - 1)),
        _ => reach!(match capacity {
            64 => "capacity: 64",
            128 => "capacity: 128",
            129 => "capacity: 129",
            MOST_CONTACTS => "capacity: the largest",
            _ => "capacity: 65 to 70",
        }),
    }
}

fn is_large(capacity: usize) -> bool {
    capacity > 8
}

/// So many colliders that there are more pairs than room for them, in small lists 4 to 6.
fn collider_count(rng: &mut Rng, capacity: usize) -> usize {
    match is_large(capacity) {
        false => 4 + rng.below(3),
        true => (2..).find(|n| n * (n - 1) / 2 > capacity + 2).unwrap(),
    }
}

/// As many pairs of the colliders as there is room for, in any order.
fn all_pairs(rng: &mut Rng, capacity: usize, numbers: &[(u32, u32)]) -> Vec<(u32, u32)> {
    let mut pairs = vec![];
    for (k, (a, _)) in numbers.iter().enumerate() {
        pairs.extend(numbers[..k].iter().map(|(b, _)| (*a, *b)));
    }
    rng.shuffle(&mut pairs);
    pairs.truncate(capacity);
    pairs
}

impl List {
    fn new(against: Against, seed: u64, number: u64) -> Self {
        let mut rng = match against {
            Against::Rust => Rng::new(seed, number),
            Against::Model => Rng::apart(seed, number),
        };
        let capacity = capacity(&mut rng, number);
        reached_capacity(capacity);
        let count = collider_count(&mut rng, capacity);
        let mut colliders: Vec<u32> = (0..COLLIDERS as u32).collect();
        let mut bodies: Vec<u32> = (0..BODIES as u32).collect();
        rng.shuffle(&mut colliders);
        rng.shuffle(&mut bodies);
        let settings = rng.settings();
        let numbers: Vec<(u32, u32)> = colliders.into_iter().zip(bodies).take(count).collect();
        let first_pairs = match is_large(capacity) || against == Against::Model {
            true => all_pairs(&mut rng, capacity, &numbers),
            false => vec![],
        };
        let mut list = Self {
            sides: Sides::new(against, capacity, &settings),
            first_pairs,
            numbers,
            rng,
        };
        list.draw_all();
        list
    }

    fn length(&mut self) -> usize {
        self.first_pairs.len() + 12 + self.rng.below(30)
    }

    fn call(&mut self, refusals: &mut Refusals) -> Result<(), Difference> {
        if let Some((collider1, collider2)) = self.first_pairs.pop() {
            let addition = Addition {
                collider1,
                collider2,
                ..self.addition()
            };
            return self.sides.add(&addition, refusals);
        }
        match self.rng.below(40) {
            0..10 => {
                reach!("call: addition");
                let addition = self.addition();
                self.sides.add(&addition, refusals)
            }
            10..28 => {
                reach!("call: step");
                self.step(refusals)
            }
            28..32 => {
                reach!("call: impulses");
                self.write_impulses();
                Ok(())
            }
            32..34 => {
                reach!("call: removal");
                let id = self.id();
                self.sides.remove(id, refusals)
            }
            34..36 => {
                reach!("call: look up");
                let id = self.id();
                self.sides.look_up(id, refusals)
            }
            36..38 => {
                reach!("call: prune");
                self.prune(refusals)
            }
            38 => {
                reach!("call: empty graph");
                let most = MOST_CONTACTS as u32;
                let capacities = [0, 1, 2, 5, 63, 64, most - 1, most, most + 1, u32::MAX];
                sides::empty_graph(self.rng.of(&capacities), refusals)
            }
            _ => {
                reach!("call: damaged, on copies");
                (0..4).try_for_each(|_| self.damaged_call(refusals))
            }
        }
    }

    fn damaged_call(&mut self, refusals: &mut Refusals) -> Result<(), Difference> {
        self.draw_world();
        self.draw_proposals();
        let workers = self.workers();
        let shares = self.shares(&workers);
        damage::any_call(&mut self.rng, &self.sides, &shares, refusals)
    }

    fn out_of_range(&mut self, limit: usize) -> u32 {
        self.rng.of(&[limit as u32, limit as u32 + 1, u32::MAX])
    }

    /// Of the list's colliders, at times one that is absent or out of range, at times the same twice.
    fn collider(&mut self) -> u32 {
        match self.rng.below(80) {
            0 => self.out_of_range(COLLIDERS),
            1 | 2 => self.rng.below(COLLIDERS) as u32,
            _ => self.rng.of(&self.numbers).0,
        }
    }

    /// In two of three.
    fn named_body(&mut self) -> Option<u32> {
        match self.rng.below(60) {
            0..20 => None,
            20 => Some(self.out_of_range(BODIES)),
            _ => Some(self.rng.below(BODIES) as u32),
        }
    }

    fn addition(&mut self) -> Addition {
        Addition {
            collider1: self.collider(),
            collider2: self.collider(),
            body1: self.named_body(),
            body2: self.named_body(),
            contact_events: !self.rng.one_in(3),
            modify_contacts: self.rng.one_in(3),
            speculative_distance: self.rng.speculative_distance(),
        }
    }

    /// A standing contact's, else one freed, never given, or none at all.
    fn id(&mut self) -> ContactId {
        let active = self.sides.active();
        if active.is_empty() || self.rng.one_in(4) {
            self.id_not_active()
        } else {
            self.rng.of(&active)
        }
    }

    fn id_not_active(&mut self) -> ContactId {
        let edges = &self.sides.narrow_phase.contact_graph.edges;
        let given = ContactId(edges.raw_edges().len() as u32);
        match self.rng.below(4) {
            0 | 1 => edges.free().last().copied().unwrap_or(given),
            2 => given,
            _ => ContactId::PLACEHOLDER,
        }
    }

    /// Half of the stored points.
    fn write_impulses(&mut self) {
        let sizes: Vec<Vec<usize>> = self
            .sides
            .narrow_phase
            .contact_graph
            .active_pairs
            .iter()
            .map(|pair| pair.manifolds.iter().map(|m| m.points.len()).collect())
            .collect();
        for (pair, manifolds) in sizes.iter().enumerate() {
            for (m, points) in manifolds.iter().enumerate() {
                for p in (0..*points)
                    .filter(|_| self.rng.one_in(2))
                    .collect::<Vec<_>>()
                {
                    let impulses = [(); 4].map(|()| self.rng.impulse());
                    reach!(if (impulses.iter().any(|x| x.is_nan())) {
                        "impulse written, NaN"
                    } else {
                        "impulse written"
                    });
                    self.sides.write_impulses(pair, m, p, impulses);
                }
            }
        }
    }

    fn prune(&mut self, refusals: &mut Refusals) -> Result<(), Difference> {
        let points = match self.rng.below(8) {
            0 => self.rng.few_points(),
            1 => self.rng.too_many_points(),
            _ => self.rng.many_points(),
        };
        let (style, features) = (self.rng.style(), self.rng.below(4));
        let manifold = self.rng.manifold(points, style, features);
        sides::prune(&manifold, refusals)
    }
}
