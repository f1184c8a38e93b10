//! A list's two sides: the reference on typed values, and the library through the bindings. Each call goes to both, is answered by
//! both, and is followed by a comparison of all that they hold.

use crate::branches::{parted, reach, said};
use crate::differences::{self, Compared, Difference, same};
use crate::draws::StepSettings;
use crate::encode;
use crate::oracle::{self, StepRows};
use crate::refusals::{Call, Refusals};
use reference::layout::*;
use reference::tables::hash::graph_hash;
use reference::tables::reached::uncounted;
use reference::*;
use sardinerod::{Addition, PrunePoint, Refusal, Shares, World};

/// What the library is compared with.
#[derive(Clone, Copy, Debug, PartialEq, Eq)]
pub enum Against {
    /// avian's Rust: every step names matching by number.
    Rust,
    /// The same but for matching, which is the model's (`reference::by_place`) in steps by place: every step draws the setting.
    Model,
}

pub struct Sides {
    pub against: Against,
    pub capacity: usize,
    pub settings: StepSettings,
    /// Accepted steps, and those that would leave another graph by the other rule of matching: counted against the model.
    pub steps: usize,
    pub parted: usize,
    // The reference.
    pub narrow_phase: NarrowPhase,
    pub hooks: Hooks,
    pub shapes: Shapes,
    events: Vec<CollisionEvent>,
    changes: Vec<ContactStatusChange>,
    diagnostics: CollisionDiagnostics,
    // The library.
    pub graph: sardinerod::ContactGraph,
    pub world: World,
}

/// 0, or the refusal's number.
fn number<T>(answer: &Result<T, Refusal>) -> u32 {
    answer.as_ref().err().map_or(0, |refusal| refusal.number())
}

impl Sides {
    pub fn new(against: Against, capacity: usize, settings: &StepSettings) -> Self {
        let mut sides = Self {
            against,
            capacity,
            settings: *settings,
            steps: 0,
            parted: 0,
            narrow_phase: NarrowPhase {
                collider_query: Query(vec![None; COLLIDERS]),
                body_query: Query(vec![None; BODIES]),
                contact_graph: ContactGraph::default(),
                contact_status_changes: vec![],
                contact_status_bits: BitVec::default(),
                thread_locals: vec![],
                config: settings.config,
                default_friction: settings.default_friction,
                default_restitution: settings.default_restitution,
                length_unit: settings.length_unit,
                matching: settings.matching.unwrap_or_default(),
                combined_by: vec![[CoefficientCombine::Average; 2]; capacity],
            },
            hooks: Hooks(vec![false; capacity]),
            shapes: Shapes {
                proposed: vec![vec![]; capacity],
                asked: vec![None; capacity],
            },
            events: vec![],
            changes: vec![],
            diagnostics: CollisionDiagnostics::default(),
            graph: sardinerod::ContactGraph::new(capacity as u32).unwrap(),
            world: World::new(capacity as u32).unwrap(),
        };
        sides.set_settings(settings);
        sides
    }

    pub fn set_settings(&mut self, settings: &StepSettings) {
        self.settings = *settings;
        self.narrow_phase.length_unit = settings.length_unit;
        self.narrow_phase.config = settings.config;
        self.narrow_phase.default_friction = settings.default_friction;
        self.narrow_phase.default_restitution = settings.default_restitution;
        self.narrow_phase.matching = settings.matching.unwrap_or_default();
        self.world.set_settings(&encode::settings(settings));
    }

    pub fn set_collider(&mut self, n: u32, collider: Option<ColliderQuery>) {
        match &collider {
            Some(collider) => self.world.set_collider(n, &encode::collider(collider)),
            None => self.world.clear_collider(n),
        }
        .unwrap();
        self.narrow_phase.collider_query.0[n as usize] = collider;
    }

    pub fn set_body(&mut self, n: u32, body: Option<RigidBodyQuery>) {
        match &body {
            Some(body) => self.world.set_body(n, &encode::body(body)),
            None => self.world.clear_body(n),
        }
        .unwrap();
        self.narrow_phase.body_query.0[n as usize] = body;
    }

    pub fn body(&self, n: u32) -> Option<&RigidBodyQuery> {
        self.narrow_phase.body_query.0[n as usize].as_ref()
    }

    pub fn propose(&mut self, id: ContactId, hook: bool, manifolds: Vec<ContactManifold>) {
        let proposed = encode::proposed(&manifolds);
        self.world
            .propose(sardinerod::ContactId(id.0), hook, &proposed)
            .unwrap();
        self.hooks.0[id.0 as usize] = hook;
        self.shapes.proposed[id.0 as usize] = manifolds;
    }

    /// The ids of the active pairs, in the list's order.
    pub fn active(&self) -> Vec<ContactId> {
        let pairs = &self.narrow_phase.contact_graph.active_pairs;
        pairs.iter().map(|pair| pair.contact_id).collect()
    }

    /// The rows of a step as they stand.
    pub fn step_rows<'a>(&'a self, shares: &'a Shares) -> StepRows<'a> {
        StepRows {
            settings: self.world.settings_words(),
            colliders: self.world.colliders_words(),
            bodies: self.world.bodies_words(),
            proposals: self.world.proposals_words(),
            shares: shares.words(),
            graph: self.graph.words(),
            bits: self.graph.bits().len(),
            events: self.graph.events_words().len(),
            changes: self.graph.changes_words().len(),
            distances: self.graph.distances_words().len(),
            answer: STEP_ANSWER_LENGTH,
        }
    }

    /// All that a list compares after a call.
    pub fn compare(&self) -> Compared {
        let reference = &self.narrow_phase;
        differences::graph(
            &reference.contact_graph,
            &reference.combined_by,
            &self.graph,
        )?;
        differences::written(&self.events, &self.changes, &self.shapes.asked, &self.graph)?;
        differences::bits(reference, self.capacity, self.graph.bits())
    }

    pub fn add(&mut self, addition: &Addition, refusals: &mut Refusals) -> Compared {
        let request = request(addition);
        let expected = oracle::add(self.graph.words(), &request, ADD_ANSWER_LENGTH);
        let before = (expected != 0).then(|| self.graph.clone());
        let answer = self.graph.add(addition);
        refusals.note(Call::Add, number(&answer));
        same("answer of an addition", expected, number(&answer))?;
        unchanged(before, &self.graph)?;
        if let Ok(id) = answer {
            let ours = add_pair(&mut self.narrow_phase.contact_graph, &typed(addition));
            same("id of an addition", ours.unwrap().0, id.0)?;
        }
        Ok(())
    }

    pub fn remove(&mut self, id: ContactId, refusals: &mut Refusals) -> Compared {
        let expected = oracle::remove(self.graph.words(), id.0);
        let before = (expected != 0).then(|| self.graph.clone());
        let answer = self.graph.remove(sardinerod::ContactId(id.0));
        refusals.note(Call::Remove, number(&answer));
        same("answer of a removal", expected, number(&answer))?;
        unchanged(before, &self.graph)?;
        if answer.is_ok() {
            remove_pair(&mut self.narrow_phase.contact_graph, id);
        }
        Ok(())
    }

    pub fn look_up(&self, id: ContactId, refusals: &mut Refusals) -> Compared {
        let expected = oracle::look_up(self.graph.words(), id.0, LOOK_UP_ANSWER_LENGTH);
        let answer = self.graph.look_up(sardinerod::ContactId(id.0));
        refusals.note(Call::LookUp, number(&answer));
        same("answer of a look up", expected, number(&answer))?;
        let ours = self.narrow_phase.contact_graph.get_edge_by_id(id);
        match (ours, answer) {
            (Some(ours), Ok(theirs)) => differences::looked_up(ours, &theirs),
            (ours, theirs) => same("found", ours.is_some(), theirs.is_ok()),
        }
    }

    /// A step by workers that are not yet known to be allowed.
    pub fn step(
        &mut self,
        workers: &[Vec<ContactId>],
        shares: &Shares,
        refusals: &mut Refusals,
    ) -> Compared {
        let expected = oracle::step(&self.step_rows(shares));
        let before = (expected != 0).then(|| self.graph.clone());
        let answer = self.graph.step(&self.world, shares);
        refusals.note(Call::Step, number(&answer));
        same("answer of a step", expected, number(&answer))?;
        unchanged(before, &self.graph)?;
        let Ok(report) = answer else {
            return Ok(());
        };
        let pairs = self.narrow_phase.contact_graph.active_pairs.len();
        self.update(workers);
        let recycled = self.diagnostics.recycled_count;
        reached_in_step(workers, pairs, recycled);
        same("events written", self.events.len(), report.events as usize)?;
        same(
            "changes written",
            self.changes.len(),
            report.changes as usize,
        )?;
        same("contacts recycled", recycled, report.recycled)
    }

    /// The reference's step.
    fn update(&mut self, workers: &[Vec<ContactId>]) {
        let graph = &self.narrow_phase.contact_graph;
        let place = |id: &ContactId| graph.get_edge_by_id(*id).unwrap().pair_index;
        let places: Vec<Vec<usize>> = workers
            .iter()
            .map(|ids| ids.iter().map(place).collect())
            .collect();
        let listed = graph.active_pairs.len();
        let by_other_rule = self.by_other_rule(&places);
        self.events.clear();
        self.shapes.asked.fill(None);
        self.diagnostics.recycled_count = 0;
        self.narrow_phase.update(
            &mut self.events,
            self.settings.delta_secs,
            &self.hooks,
            &mut self.shapes,
            &mut self.diagnostics,
            &places,
        );
        self.changes = std::mem::take(&mut self.narrow_phase.contact_status_changes);
        let left = self.narrow_phase.contact_graph.active_pairs.len();
        reach!(match (listed - left) {
            0 => "removals in a step: none",
            1 => "removals in a step: 1",
            _ => "removals in a step: several",
        });
        if let Some(other) = by_other_rule {
            self.count_parted(&other);
        }
    }

    /// The graph that the reference's step would leave by the other rule of matching. Against the model, where branches are counted.
    fn by_other_rule(&self, places: &[Vec<usize>]) -> Option<ContactGraph> {
        if !cfg!(feature = "counts") || self.against == Against::Rust {
            return None;
        }
        let (mut narrow_phase, mut shapes) = (self.narrow_phase.clone(), self.shapes.clone());
        narrow_phase.matching = match narrow_phase.matching {
            Matching::ByNumber => Matching::ByPlace,
            Matching::ByPlace => Matching::ByNumber,
        };
        uncounted(|| {
            narrow_phase.update(
                &mut vec![],
                self.settings.delta_secs,
                &self.hooks,
                &mut shapes,
                &mut CollisionDiagnostics::default(),
                places,
            )
        });
        Some(narrow_phase.contact_graph)
    }

    fn count_parted(&mut self, by_other_rule: &ContactGraph) {
        let graphs = [&self.narrow_phase.contact_graph, by_other_rule];
        let [left, other] = graphs.map(|graph| graph_hash(graph, self.capacity));
        self.steps += 1;
        if left != other {
            self.parted += 1;
            parted!(match (self.settings.matching) {
                Some(Matching::ByNumber) => "the rules part: a step by number",
                Some(Matching::ByPlace) => "the rules part: a step by place",
                None => "the rules part: a step that names none",
            });
        }
    }

    /// Writes impulses of a stored point.
    pub fn write_impulses(&mut self, pair: usize, m: usize, p: usize, impulses: [f32; 4]) {
        let contacts = &mut self.narrow_phase.contact_graph.active_pairs[pair];
        let [normal, warm, tangent1, tangent2] = impulses;
        let ours = &mut contacts.manifolds[m].points[p];
        ours.normal_impulse = normal;
        ours.warm_start_normal_impulse = warm;
        ours.warm_start_tangent_impulse = Vec2 {
            x: tangent1,
            y: tangent2,
        };
        let id = sardinerod::ContactId(contacts.contact_id.0);
        let mut theirs = self.graph.point_mut(id, m, p).unwrap();
        theirs.set_normal_impulse(normal);
        theirs.set_warm_start_normal_impulse(warm);
        theirs.set_warm_start_tangent_impulse([tangent1, tangent2]);
    }
}

/// Which points stay; the reference's points carry their numbers as features.
pub fn prune(manifold: &ContactManifold, refusals: &mut Refusals) -> Compared {
    let points: Vec<PrunePoint> = manifold
        .points
        .iter()
        .map(|point| PrunePoint {
            anchor1: encode::vector(point.anchor1),
            penetration: point.penetration,
        })
        .collect();
    let answer = sardinerod::prune(encode::vector(manifold.normal), &points);
    refusals.note(Call::Prune, number(&answer));
    let expected = oracle::prune(
        PRUNE_NORMAL_LENGTH,
        PRUNE_POINTS_LENGTH,
        points.len() as u32,
        PRUNE_ANSWER_LENGTH,
    );
    same("answer of a prune", expected, number(&answer))?;
    let Ok(kept) = answer else {
        return Ok(());
    };
    let mut ours = manifold.clone();
    for (k, point) in ours.points.iter_mut().enumerate() {
        point.feature_id1 = PackedFeatureId(k as u32);
    }
    ours.prune_points();
    let numbers = ours.points.iter().map(|point| point.feature_id1.0 as usize);
    same("kept points", numbers.collect(), kept.to_vec())
}

/// An empty graph of that capacity.
pub fn empty_graph(capacity: u32, refusals: &mut Refusals) -> Compared {
    let answer = sardinerod::ContactGraph::new(capacity);
    refusals.note(Call::LayOut, number(&answer));
    let length = graph_length((capacity as usize).clamp(1, MOST_CONTACTS));
    same(
        "answer of an empty graph",
        oracle::lay_out(length, capacity),
        number(&answer),
    )?;
    let Ok(graph) = answer else {
        return Ok(());
    };
    let mut words = vec![0; length];
    words[GRAPH_CAPACITY] = capacity;
    same("words of an empty graph", &words[..], graph.words())
}

fn unchanged(
    before: Option<sardinerod::ContactGraph>,
    after: &sardinerod::ContactGraph,
) -> Compared {
    match before {
        Some(before) if before != *after => {
            Err(Difference::new("refused call", "no change", "a change"))
        }
        _ => Ok(()),
    }
}

fn request(a: &Addition) -> [u32; REQUEST_LENGTH] {
    let mut words = [0; REQUEST_LENGTH];
    words[REQUEST_COLLIDER1] = a.collider1;
    words[REQUEST_COLLIDER2] = a.collider2;
    for (mark, body) in [(REQUEST_BODY1, a.body1), (REQUEST_BODY2, a.body2)] {
        words[mark] = body.is_some() as u32;
        words[mark + 1] = body.unwrap_or(0);
    }
    words[REQUEST_CONTACT_EVENTS] = a.contact_events as u32;
    words[REQUEST_MODIFY_CONTACTS] = a.modify_contacts as u32;
    words[REQUEST_SPECULATIVE_DISTANCE] = a.speculative_distance.to_bits();
    words
}

fn typed(a: &Addition) -> reference::Addition {
    reference::Addition {
        collider1: Entity(a.collider1),
        collider2: Entity(a.collider2),
        body1: a.body1.map(Entity),
        body2: a.body2.map(Entity),
        contact_events: a.contact_events,
        modify_contacts: a.modify_contacts,
        speculative_distance: a.speculative_distance,
    }
}

/// The reference's removal.
pub fn remove_pair(graph: &mut ContactGraph, id: ContactId) {
    let edge = graph.get_edge_by_id(id).unwrap();
    let key = PairKey::new(edge.collider1.index_u32(), edge.collider2.index_u32());
    graph.remove_edge_by_id(&key, id);
}

/// Whether rows of settings say that a step matches by place.
pub fn says_by_place(settings: &[u32]) -> bool {
    settings.len() == SETTINGS_LENGTH && matches!(settings[SETTINGS_MATCHING..], [0, _] | [1, 1])
}

/// Of an accepted step.
pub fn reached_matching(settings: &[u32]) {
    said!(match (
        settings[SETTINGS_MATCHING],
        settings[SETTINGS_MATCHING_VALUE]
    ) {
        (1, 0) => "matching: by number",
        (1, _) => "matching: by place",
        (_, 0) => "matching: not named, 0 behind the mark",
        (_, 1) => "matching: not named, 1 behind the mark",
        _ => "matching: not named, another word behind the mark",
    });
}

fn reached_in_step(workers: &[Vec<ContactId>], pairs: usize, recycled: u32) {
    reach!("workers: 1" + (workers.len() - 1));
    if workers.iter().any(|ids| ids.is_empty()) {
        reach!("a worker without contacts");
    }
    reach!(match pairs {
        0 => "pairs in a step: none",
        1 => "pairs in a step: 1",
        2..=8 => "pairs in a step: 2 to 8",
        9..=64 => "pairs in a step: 9 to 64",
        _ => "pairs in a step: over 64",
    });
    reach!(match (recycled as usize) {
        0 => "none recycled",
        n if n == pairs => "all recycled",
        _ => "some recycled",
    });
}
