//! A carton stands on a larger one, on four corners without numbers, and is turned about the first of them. Whose impulses does each
//! corner take? By number all four take those of the first; by place each takes those of the old corner near it, and the one that
//! has moved too far takes none.

use std::error::Error;
use std::io::{self, Write};

use sardinerod::{
    Addition, Body, Collider, ContactGraph, ContactId, Matching, PackedFeatureId, Point,
    ProposedManifold, ProposedPoint, Refusal, Settings, Shares, World,
};

const CAPACITY: u32 = 1;
const CONTACT: ContactId = ContactId(0);

/// The cartons' colliders, and their bodies.
const LOWER: u32 = 0;
const UPPER: u32 = 1;

/// The corners (x, z) on which the upper carton stands.
const CORNERS: [[f32; 2]; 4] = [[-0.5, -0.5], [0.5, -0.5], [0.5, 0.5], [-0.5, 0.5]];

/// By how much it is turned about the first corner, in radians. The two corners beside that move by 0.08, the one across by 0.11.
const TURN: f32 = 0.08;

/// What the solver writes at each corner: the normal impulse, and two along the surface.
const SOLVED: [[f32; 3]; 4] = [
    [9.0, 0.5, -0.5],
    [7.0, 1.0, 0.25],
    [5.0, 1.5, 0.75],
    [3.0, 2.0, -1.25],
];

/// A carton that may be turned about the vertical.
struct Carton {
    number: u32,
    middle: [f32; 3],
    half_side: f32,
    turn: f32,
}

impl Carton {
    /// Of side 2, with its top at height 0.
    fn lower() -> Carton {
        Carton {
            number: LOWER,
            middle: [0.0, -1.0, 0.0],
            half_side: 1.0,
            turn: 0.0,
        }
    }

    /// Of side 1, and on top of the lower one.
    fn upper(turn: f32) -> Carton {
        let [x, z] = turned([0.0, 0.0], turn);
        Carton {
            number: UPPER,
            middle: [x, 0.5, z],
            half_side: 0.5,
            turn,
        }
    }

    /// Its box has room for any turn.
    fn collider(&self) -> Collider {
        let reach = 1.5 * self.half_side;
        Collider {
            body: Some(self.number),
            lower: self.middle.map(|m| m - reach),
            upper: self.middle.map(|m| m + reach),
            position: self.middle,
            ..Collider::default()
        }
    }

    fn body(&self) -> Body {
        let (sin, cos) = (self.turn / 2.0).sin_cos();
        Body {
            position: self.middle,
            rotation: [0.0, sin, 0.0, cos],
            ..Body::default()
        }
    }
}

/// A place (x, z) after a turn about the first corner.
fn turned([x, z]: [f32; 2], turn: f32) -> [f32; 2] {
    let [pivot_x, pivot_z] = CORNERS[0];
    let (dx, dz) = (x - pivot_x, z - pivot_z);
    let (sin, cos) = turn.sin_cos();
    [pivot_x + cos * dx + sin * dz, pivot_z + cos * dz - sin * dx]
}

/// A corner without numbers, where the cartons meet.
fn corner([x, z]: [f32; 2], lower: &Carton, upper: &Carton) -> ProposedPoint {
    let point = [x, 0.0, z];
    ProposedPoint {
        anchor1: difference(point, lower.middle),
        anchor2: difference(point, upper.middle),
        point,
        penetration: 0.0,
        feature_id1: PackedFeatureId::UNKNOWN,
        feature_id2: PackedFeatureId::UNKNOWN,
    }
}

fn difference(a: [f32; 3], b: [f32; 3]) -> [f32; 3] {
    [a[0] - b[0], a[1] - b[1], a[2] - b[2]]
}

/// Both cartons, the upper one turned so far, for a step that recycles nothing.
fn world(turn: f32, matching: Matching) -> Result<World, Refusal> {
    let mut world = World::new(CAPACITY)?;
    world.set_settings(&Settings {
        recycle_distance: 0.0,
        matching: Some(matching),
        ..Settings::default()
    });
    let (lower, upper) = (Carton::lower(), Carton::upper(turn));
    for carton in [&lower, &upper] {
        world.set_collider(carton.number, &carton.collider())?;
        world.set_body(carton.number, &carton.body())?;
    }
    let points = CORNERS.map(|place| corner(turned(place, turn), &lower, &upper));
    let manifold = ProposedManifold {
        normal: [0.0, 1.0, 0.0],
        points: points.to_vec(),
    };
    world.propose(CONTACT, true, &[manifold])?;
    Ok(world)
}

/// The carton stands, and the solver has had its turn.
fn standing() -> Result<ContactGraph, Refusal> {
    let mut graph = ContactGraph::new(CAPACITY)?;
    graph.add(&Addition {
        collider1: LOWER,
        collider2: UPPER,
        body1: Some(LOWER),
        body2: Some(UPPER),
        ..Addition::default()
    })?;
    // There is no old corner yet, so that this matching does not matter.
    graph.step(&world(0.0, Matching::ByPlace)?, &Shares::single(&graph))?;
    graph.for_each_point_mut(|_, _, corner, mut point| {
        let [normal, along1, along2] = SOLVED[corner];
        point.set_warm_start_normal_impulse(normal);
        point.set_warm_start_tangent_impulse([along1, along2]);
    });
    Ok(graph)
}

/// The corners after a step of that graph in which the carton has been turned.
fn corners_after_turn(standing: &ContactGraph, matching: Matching) -> Result<Vec<Point>, Refusal> {
    let mut graph = standing.clone();
    graph.step(&world(TURN, matching)?, &Shares::single(standing))?;
    Ok(corners(&graph))
}

fn corners(graph: &ContactGraph) -> Vec<Point> {
    let manifolds = graph.pairs().flat_map(|pair| pair.manifolds());
    manifolds.flat_map(|manifold| manifold.points()).collect()
}

fn place(point: &Point) -> String {
    let [x, _, z] = point.point;
    format!("{x:>5.2} {z:>5.2}")
}

fn distance(a: &Point, b: &Point) -> f32 {
    let [x, y, z] = difference(a.point, b.point);
    (x * x + y * y + z * z).sqrt()
}

fn impulses(point: &Point) -> String {
    let normal = point.warm_start_normal_impulse;
    let [along1, along2] = point.warm_start_tangent_impulse;
    format!("{normal:.2} {along1:>5.2} {along2:>5.2}")
}

const HEADER: &str = "\
A carton on four unnamed corners is turned about corner 0. By place, corners match that are less than 0.1 apart.
A place is x, z; impulses are one along the normal, two along the surface.

corner  old place    new place    moved  solver wrote      by number         by place
";

/// Writes for each corner where it was and is, what the solver wrote there, and what it holds after a step by number and by place.
pub fn compare(out: &mut impl Write) -> Result<(), Box<dyn Error>> {
    let graph = standing()?;
    let before = corners(&graph);
    let by_number = corners_after_turn(&graph, Matching::ByNumber)?;
    let by_place = corners_after_turn(&graph, Matching::ByPlace)?;
    out.write_all(HEADER.as_bytes())?;
    for (k, old) in before.iter().enumerate() {
        let new = &by_place[k];
        let (was, is, moved) = (place(old), place(new), distance(old, new));
        write!(out, "{k}       {was}  {is}  {moved:.2}   {}", impulses(old))?;
        writeln!(out, "  {}  {}", impulses(&by_number[k]), impulses(new))?;
    }
    Ok(())
}

#[allow(dead_code, reason = "tests/corners.rs calls `compare`")]
fn main() -> Result<(), Box<dyn Error>> {
    compare(&mut io::stdout().lock())
}
