//! The time of a step: avian's Rust as carried over, counts left out, and the library, on the same inputs in one run. Then that of a
//! trace. In the case by place the Rust's matching is replaced by the model's, and the points have no features; all others are by number.
//!
//! Both update all active pairs by the same workers, one after another, and make the status pass, with events, changes and
//! distances. The Rust's typed inputs are made before the time is taken; its shape copies the proposed manifolds into the pair. The
//! library's step is `raw::step` on words, its tests of lengths and ranges included. Neither side is set back between steps: after
//! the first ones each step leaves the same state. After the timed steps both must hold the same.

mod traces;

#[cfg(feature = "counts")]
compile_error!("the time is taken without counts: --no-default-features --features bench");

use compare::draws::StepSettings;
use compare::refusals::Refusals;
use compare::sides::{Against, Sides};
use reference::layout::*;
use reference::*;
use sardinerod::{Addition, Shares, raw};
use std::hint::black_box;
use std::time::Instant;

/// Timed batches on each side, by turns, and the time that one should take.
const BATCHES: usize = 25;
const BATCH_SECONDS: f64 = 0.004;

const CONTACTS: [usize; 3] = [16, 64, MOST_CONTACTS];
const WORKERS: [usize; 2] = [1, MOST_WORKERS];

#[derive(Clone, Copy)]
struct Case {
    name: &'static str,
    recycle_distance: f32,
    /// The bodies have moved and turned a little since the contacts were made.
    moved: bool,
    points: usize,
    /// By place, of points without features.
    matching: Matching,
}

const CASES: [Case; 5] = [
    Case {
        name: "recycled, at rest",
        recycle_distance: 0.05,
        moved: false,
        points: STORED_POINTS,
        matching: Matching::ByNumber,
    },
    Case {
        name: "recycled, moved",
        recycle_distance: 0.05,
        moved: true,
        points: STORED_POINTS,
        matching: Matching::ByNumber,
    },
    Case {
        name: "none recycled",
        recycle_distance: 0.0,
        moved: false,
        points: STORED_POINTS,
        matching: Matching::ByNumber,
    },
    Case {
        name: "by place, unnamed",
        recycle_distance: 0.0,
        moved: false,
        points: STORED_POINTS,
        matching: Matching::ByPlace,
    },
    Case {
        name: "points pruned",
        recycle_distance: 0.0,
        moved: false,
        points: PROPOSED_POINTS,
        matching: Matching::ByNumber,
    },
];

fn main() {
    println!(
        "ns for a step, median of {BATCHES} batches; {STORED_POINTS} stored points for each contact"
    );
    println!("by place, the model of that stands for the Rust's matching");
    println!("case               contacts  workers      Rust   library  library / Rust");
    for case in CASES {
        for workers in WORKERS {
            measure(case, workers);
        }
    }
    traces::measure_all();
}

/// Prints a line for each number of contacts, and how both sides grow from the first to the last.
fn measure(case: Case, workers: usize) {
    let mut runs = CONTACTS.map(|contacts| Run::new(case, contacts, workers));
    // By turns, so that what slows the machine slows all.
    for _ in 0..BATCHES {
        runs.iter_mut().for_each(Run::batch);
    }
    let name = match case.points {
        STORED_POINTS => case.name.to_string(),
        points => format!("{points} {}", case.name),
    };
    for (contacts, run) in CONTACTS.iter().zip(&runs) {
        let rust = median(&run.rust_times);
        let library = median(&run.library_times);
        let ratio = median_ratio(&run.library_times, &run.rust_times);
        println!("{name:17}  {contacts:8}  {workers:7}  {rust:8.0}  {library:8.0}  {ratio:14.2}");
    }
    let [first, _, last] = &runs;
    let rust = median_ratio(&last.rust_times, &first.rust_times);
    let library = median_ratio(&last.library_times, &first.library_times);
    let [least, _, most] = CONTACTS;
    println!("{name:17}  {least} to {most}  {workers:6}  {rust:7.1}x  {library:7.1}x");
    runs.into_iter().for_each(Run::check);
}

fn median(values: &[f64]) -> f64 {
    let mut values = values.to_vec();
    values.sort_by(f64::total_cmp);
    values[values.len() / 2]
}

/// Of batches that follow each other.
fn median_ratio(values: &[f64], over: &[f64]) -> f64 {
    let ratios: Vec<f64> = values.iter().zip(over).map(|(a, b)| a / b).collect();
    median(&ratios)
}

/// Both sides of one measurement, and their nanoseconds for a step, batch by batch.
struct Run {
    sides: Sides,
    hands: Vec<Vec<ContactId>>,
    shares: Shares,
    rust: Rust,
    library: Library,
    steps: usize,
    rust_times: Vec<f64>,
    library_times: Vec<f64>,
}

impl Run {
    /// Two steps bring both sides to the state that all later ones leave.
    fn new(case: Case, contacts: usize, workers: usize) -> Self {
        let mut sides = sides(case, contacts);
        let shares = Shares::dealt(&sides.graph, workers);
        let hands = hands(&sides, workers);
        for _ in 0..2 {
            step_and_compare(&mut sides, &hands, &shares);
        }
        if case.moved {
            move_bodies(&mut sides);
            step_and_compare(&mut sides, &hands, &shares);
        }
        let recycled = match case.recycle_distance {
            0.0 => 0,
            _ => contacts,
        };
        assert_eq!(sides.graph.report().recycled as usize, recycled);
        let mut rust = Rust::new(&sides, &hands);
        let mut library = Library::new(&sides, &shares);
        Self {
            steps: steps(&mut rust, &mut library),
            sides,
            hands,
            shares,
            rust,
            library,
            rust_times: vec![],
            library_times: vec![],
        }
    }

    fn batch(&mut self) {
        let nanoseconds = 1e9 / self.steps as f64;
        let rust = seconds(self.steps, || self.rust.step());
        let library = seconds(self.steps, || self.library.step());
        self.rust_times.push(rust * nanoseconds);
        self.library_times.push(library * nanoseconds);
    }

    /// Both have made as many steps. One more must leave them alike.
    fn check(mut self) {
        self.sides.narrow_phase = self.rust.narrow_phase;
        self.sides.graph = sardinerod::ContactGraph::from_words(self.library.graph).unwrap();
        step_and_compare(&mut self.sides, &self.hands, &self.shares);
    }
}

fn step_and_compare(sides: &mut Sides, hands: &[Vec<ContactId>], shares: &Shares) {
    sides.step(hands, shares, &mut Refusals::default()).unwrap();
    sides.compare().unwrap();
}

fn seconds(steps: usize, mut step: impl FnMut()) -> f64 {
    let start = Instant::now();
    (0..steps).for_each(|_| step());
    start.elapsed().as_secs_f64()
}

/// So many steps that a batch of the slower side takes `BATCH_SECONDS`. Both sides make as many.
fn steps(rust: &mut Rust, library: &mut Library) -> usize {
    let slower = seconds(8, || rust.step()).max(seconds(8, || library.step())) / 8.0;
    let more = (BATCH_SECONDS / slower).ceil() as usize;
    more.max(1)
}

// ---- The sides.

struct Rust {
    narrow_phase: NarrowPhase,
    events: Vec<CollisionEvent>,
    delta_secs: f32,
    hooks: Hooks,
    shapes: Shapes,
    workers: Vec<Vec<usize>>,
}

impl Rust {
    fn new(sides: &Sides, hands: &[Vec<ContactId>]) -> Self {
        let graph = &sides.narrow_phase.contact_graph;
        let place = |id: &ContactId| graph.get_edge_by_id(*id).unwrap().pair_index;
        Self {
            workers: hands
                .iter()
                .map(|ids| ids.iter().map(place).collect())
                .collect(),
            narrow_phase: sides.narrow_phase.clone(),
            events: vec![],
            delta_secs: sides.settings.delta_secs,
            hooks: sides.hooks.clone(),
            shapes: sides.shapes.clone(),
        }
    }

    fn step(&mut self) {
        self.events.clear();
        self.narrow_phase.contact_status_changes.clear();
        self.shapes.asked.fill(None);
        let mut diagnostics = CollisionDiagnostics::default();
        black_box(&mut self.narrow_phase).update(
            black_box(&mut self.events),
            black_box(self.delta_secs),
            black_box(&self.hooks),
            black_box(&mut self.shapes),
            &mut diagnostics,
            black_box(&self.workers),
        );
        black_box(&diagnostics);
    }
}

struct Library {
    settings: Vec<u32>,
    colliders: Vec<u32>,
    bodies: Vec<u32>,
    proposals: Vec<u32>,
    shares: Vec<u32>,
    graph: Vec<u32>,
    bits: Vec<u64>,
    events: Vec<u32>,
    changes: Vec<u32>,
    distances: Vec<u32>,
}

impl Library {
    fn new(sides: &Sides, shares: &Shares) -> Self {
        Self {
            settings: sides.world.settings_words().to_vec(),
            colliders: sides.world.colliders_words().to_vec(),
            bodies: sides.world.bodies_words().to_vec(),
            proposals: sides.world.proposals_words().to_vec(),
            shares: shares.words().to_vec(),
            graph: sides.graph.words().to_vec(),
            bits: sides.graph.bits().to_vec(),
            events: sides.graph.events_words().to_vec(),
            changes: sides.graph.changes_words().to_vec(),
            distances: sides.graph.distances_words().to_vec(),
        }
    }

    fn step(&mut self) {
        let mut answer = [0; STEP_ANSWER_LENGTH];
        let number = raw::step(
            black_box(&self.settings),
            black_box(&self.colliders),
            black_box(&self.bodies),
            black_box(&self.proposals),
            black_box(&self.shares),
            black_box(&mut self.graph),
            black_box(&mut self.bits),
            black_box(&mut self.events),
            black_box(&mut self.changes),
            black_box(&mut self.distances),
            black_box(&mut answer),
        );
        assert_eq!(number, 0);
    }
}

// ---- The scene: a ring of colliders, each touching the next.

fn sides(case: Case, contacts: usize) -> Sides {
    let against = match case.matching {
        Matching::ByNumber => Against::Rust,
        Matching::ByPlace => Against::Model,
    };
    let mut sides = Sides::new(against, contacts, &settings(case));
    let colliders = (contacts + 1).min(COLLIDERS);
    for n in 0..colliders {
        sides.set_collider(n as u32, Some(collider(n)));
        sides.set_body(body_of(n), Some(body(body_of(n) as usize)));
    }
    let mut refusals = Refusals::default();
    for n in 0..contacts {
        let next = (n + 1) % colliders;
        let addition = Addition {
            collider1: n as u32,
            collider2: next as u32,
            body1: Some(body_of(n)),
            body2: Some(body_of(next)),
            contact_events: true,
            ..Addition::default()
        };
        sides.add(&addition, &mut refusals).unwrap();
    }
    for id in sides.active() {
        sides.propose(id, true, vec![manifold(id, case)]);
    }
    sides
}

/// The active pairs dealt in turn.
fn hands(sides: &Sides, workers: usize) -> Vec<Vec<ContactId>> {
    let mut hands = vec![vec![]; workers];
    for (k, id) in sides.active().into_iter().enumerate() {
        hands[k % workers].push(id);
    }
    hands
}

fn settings(case: Case) -> StepSettings {
    StepSettings {
        delta_secs: 1.0 / 64.0,
        length_unit: 1.0,
        config: NarrowPhaseConfig {
            contact_tolerance: 0.005,
            recycle_distance: case.recycle_distance,
            recycle_angular_distance: 0.99,
            match_contacts: true,
        },
        default_friction: Friction {
            dynamic_coefficient: 0.5,
            combine_rule: CoefficientCombine::Average,
        },
        default_restitution: Restitution {
            coefficient: 0.1,
            combine_rule: CoefficientCombine::Average,
        },
        matching: Some(case.matching),
    }
}

/// The body of collider n.
fn body_of(n: usize) -> u32 {
    (n % BODIES) as u32
}

fn collider(n: usize) -> ColliderQuery {
    let x = n as f32 * 0.01;
    ColliderQuery {
        of: Some(ColliderOf {
            body: Entity(body_of(n)),
        }),
        enlarged_aabb: ColliderAabb {
            min: vec3(x - 4.0, -1.0, -1.0),
            max: vec3(x + 4.0, 1.0, 1.0),
        },
        position: vec3(x, 0.25, 0.5),
        layers: CollisionLayers {
            memberships: 1,
            filters: u32::MAX,
        },
        friction: Some(Friction {
            dynamic_coefficient: 0.3 + x,
            combine_rule: CoefficientCombine::Average,
        }),
        restitution: None,
        collision_margin: Some(CollisionMargin(0.001)),
        is_sensor: false,
    }
}

/// Turned about the third axis by 0.1 and a little more from body to body.
fn body(n: usize) -> RigidBodyQuery {
    let half = 0.05 + n as f32 * 0.0001;
    RigidBodyQuery {
        is_static: n == 0,
        position: vec3(n as f32 * 0.01, 0.2, 0.4),
        rotation: quat(0.0, 0.0, half.sin(), half.cos()),
        center_of_mass: vec3(0.01, 0.02, 0.03),
        linear_velocity: vec3(0.1, -0.2, 0.3),
        angular_velocity: vec3(0.3, 0.1, -0.2),
        friction: None,
        collision_margin: None,
        speculative_ccd: Some(SpeculativeCcd { max_distance: 0.1 }),
        size_metrics: BodySizeMetrics { sweep_radius: 1.0 },
    }
}

/// By less than the recycle distance: the roots of rule 4 are then not those of 0.
fn move_bodies(sides: &mut Sides) {
    for n in 0..BODIES {
        let still = body(n);
        let step = (n % 7) as f32 * 0.0005;
        let half = 0.05 + n as f32 * 0.0001 + (n % 3) as f32 * 0.0002;
        let moved = RigidBodyQuery {
            position: still.position + vec3(step, -step, 0.5 * step),
            rotation: quat(0.0, 0.0, half.sin(), half.cos()),
            ..still
        };
        sides.set_body(n as u32, Some(moved));
    }
}

/// Points around a circle, some deeper than others, by number each with its own features.
fn manifold(id: ContactId, case: Case) -> ContactManifold {
    let points = case.points;
    let point = |k: usize| {
        let angle = k as f32 / points as f32 * std::f32::consts::TAU;
        let anchor = vec3(angle.cos() * 0.5, angle.sin() * 0.5, 0.1);
        let depth = 0.01 + (k * 7 % points) as f32 * 0.001;
        let feature = |kind: u32| PackedFeatureId(kind << 30 | (id.0 << 6) | k as u32);
        let point = ContactPoint::new(anchor, anchor, anchor, depth);
        match case.matching {
            Matching::ByNumber => point.with_feature_ids(feature(1), feature(3)),
            Matching::ByPlace => point,
        }
    };
    ContactManifold::new((0..points).map(point), vec3(0.0, 0.0, 1.0))
}
