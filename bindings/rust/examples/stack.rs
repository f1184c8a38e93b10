//! Three unit boxes come down on a floor, rest, slide, and lose the topmost: bindings/c/stack.c through the safe API. The output is
//! that of bindings/c/stack.stdout.

use std::error::Error;
use std::io::{self, Write};

use sardinerod::{
    Addition, Body, Change, Collider, ContactGraph, ContactId, Event, Matching, PackedFeatureId,
    Pair, Point, ProposedManifold, ProposedPoint, Refusal, Settings, Shares, World,
};

const CAPACITY: u32 = 4;
const WORKERS: usize = 2;

/// Where everything is in a step; the floor is number 0. Box 2 may stand aside, and on two edges.
struct Frame {
    title: &'static str,
    height: [f32; 4],
    aside: f32,
    manifolds: usize,
}

const FRAMES: [Frame; 6] = [
    Frame {
        title: "the boxes hang apart",
        height: [-0.5, 0.625, 1.75, 2.875],
        aside: 0.0,
        manifolds: 1,
    },
    Frame {
        title: "box 1 lands",
        height: [-0.5, 0.5, 1.625, 2.75],
        aside: 0.0,
        manifolds: 1,
    },
    Frame {
        title: "boxes 2 and 3 land",
        height: [-0.5, 0.5, 1.5, 2.5],
        aside: 0.0,
        manifolds: 1,
    },
    Frame {
        title: "the stack sinks",
        height: [-0.5, 0.4921875, 1.4921875, 2.4921875],
        aside: 0.0,
        manifolds: 1,
    },
    Frame {
        title: "box 2 slides, and stands on two edges",
        height: [-0.5, 0.4921875, 1.4921875, 2.4921875],
        aside: 0.0625,
        manifolds: 2,
    },
    Frame {
        title: "box 3 is lifted off",
        height: [-0.5, 0.4921875, 1.4921875, 4.0],
        aside: 0.0625,
        manifolds: 2,
    },
];

impl Frame {
    fn position(&self, n: usize) -> [f32; 3] {
        let aside = if n == 2 { self.aside } else { 0.0 };
        [aside, self.height[n], 0.0]
    }

    /// A collider whose box is 1/8 larger on each side; the floor is wider.
    fn collider(&self, n: usize) -> Collider {
        let [x, y, _] = self.position(n);
        let half = if n == 0 { 4.625 } else { 0.625 };
        Collider {
            body: Some(n as u32),
            lower: [x - half, y - 0.625, -half],
            upper: [x + half, y + 0.625, half],
            position: [x, y, 0.0],
            ..Collider::default()
        }
    }

    fn body(&self, n: usize) -> Body {
        Body {
            is_static: n == 0,
            position: self.position(n),
            sweep_radius: 0.875,
            ..Body::default()
        }
    }

    /// Corner k (0 to 3) of box n's lower face, above box n - 1.
    fn corner(&self, n: usize, k: usize) -> ProposedPoint {
        let [x, middle, _] = self.position(n);
        let dx = if k < 2 { -0.5 } else { 0.5 };
        let dz = if k.is_multiple_of(2) { -0.5 } else { 0.5 };
        let point = [x + dx, middle - 0.5, dz];
        let feature = PackedFeatureId(k as u32 + 1);
        ProposedPoint {
            anchor1: difference(point, self.position(n - 1)),
            anchor2: difference(point, self.position(n)),
            point,
            penetration: self.height[n - 1] + 0.5 - point[1],
            feature_id1: feature,
            feature_id2: feature,
        }
    }

    /// Box n above box n - 1: its four corners in one manifold, or in two.
    fn proposed(&self, n: usize) -> Vec<ProposedManifold> {
        let count = if n == 2 { self.manifolds } else { 1 };
        let corners: Vec<_> = (0..4).map(|k| self.corner(n, k)).collect();
        corners
            .chunks(4 / count)
            .map(|points| ProposedManifold {
                normal: [0.0, 1.0, 0.0],
                points: points.to_vec(),
            })
            .collect()
    }

    fn fill(&self, world: &mut World) -> Result<(), Refusal> {
        for n in 0..self.height.len() {
            world.set_collider(n as u32, &self.collider(n))?;
            world.set_body(n as u32, &self.body(n))?;
        }
        for id in 0..3 {
            world.propose(ContactId(id), true, &self.proposed(id as usize + 1))?;
        }
        Ok(())
    }
}

fn difference(a: [f32; 3], b: [f32; 3]) -> [f32; 3] {
    [a[0] - b[0], a[1] - b[1], a[2] - b[2]]
}

/// Points match by number. No corner's number is 0, so that by place would give the same.
fn settings() -> Settings {
    Settings {
        contact_tolerance: 1.0 / 64.0,
        recycle_distance: 1.0 / 32.0,
        matching: Some(Matching::ByNumber),
        ..Settings::default()
    }
}

fn add(
    out: &mut impl Write,
    graph: &mut ContactGraph,
    below: u32,
    above: u32,
) -> Result<(), Box<dyn Error>> {
    let contact = graph.add(&Addition {
        collider1: below,
        collider2: above,
        body1: Some(below),
        body2: Some(above),
        contact_events: true,
        ..Addition::default()
    })?;
    writeln!(out, "box {above} over box {below}: contact {}", contact.0)?;
    Ok(())
}

fn write_event(out: &mut impl Write, event: Event) -> io::Result<()> {
    let (kind, contact, collider1, collider2) = match event {
        Event::Started {
            contact,
            collider1,
            collider2,
            ..
        } => ("started", contact, collider1, collider2),
        Event::Ended {
            contact,
            collider1,
            collider2,
            ..
        } => ("ended", contact, collider1, collider2),
    };
    let id = contact.0;
    writeln!(
        out,
        "  {kind}: contact {id}, colliders {collider1} and {collider2}"
    )
}

fn write_change(out: &mut impl Write, change: Change) -> io::Result<()> {
    write!(out, "  constraints of contact {} ", change.contact().0)?;
    match change {
        Change::Start { .. } => writeln!(out, "start"),
        Change::Stop { body1, body2, .. } => writeln!(out, "stop, bodies {body1} and {body2}"),
        Change::Count {
            body1,
            body2,
            delta,
            ..
        } => writeln!(out, "change by {delta:+}, bodies {body1} and {body2}"),
    }
}

/// A contact by its first point: all its points are alike here.
fn write_pair(out: &mut impl Write, pair: Pair<'_>) -> io::Result<()> {
    let id = pair.id().0;
    let Some(manifold) = pair.manifolds().next() else {
        return writeln!(out, "  contact {id} is apart");
    };
    let (manifolds, points) = (pair.manifolds().len(), manifold.points().len());
    write!(
        out,
        "  contact {id} touches: manifolds {manifolds}, points {points} each"
    )?;
    for point in manifold.points().take(1) {
        let Point {
            penetration,
            normal_impulse,
            warm_start_normal_impulse,
            ..
        } = point;
        write!(
            out,
            ", penetration {penetration:.7}, impulse {normal_impulse:.2}"
        )?;
        write!(out, ", warm start {warm_start_normal_impulse:.2}")?;
    }
    writeln!(out)
}

/// The solver: each point of contact id bears a quarter of the 3 - id boxes above.
fn write_impulses(graph: &mut ContactGraph) {
    graph.for_each_point_mut(|contact, _, _, mut point| {
        let impulse = (3 - contact.0) as f32 / 4.0;
        point.set_normal_impulse(impulse);
        point.set_warm_start_normal_impulse(impulse);
    });
}

/// What the last step did, and where the contacts are now.
fn write_step(out: &mut impl Write, graph: &ContactGraph, active: usize) -> io::Result<()> {
    graph
        .events()
        .try_for_each(|event| write_event(out, event))?;
    graph
        .changes()
        .try_for_each(|change| write_change(out, change))?;
    writeln!(out, "  recycled: {} of {active}", graph.report().recycled)?;
    graph.pairs().try_for_each(|pair| write_pair(out, pair))
}

/// Plays every frame.
pub fn play(out: &mut impl Write) -> Result<(), Box<dyn Error>> {
    let mut graph = ContactGraph::new(CAPACITY)?;
    let mut world = World::new(CAPACITY)?;
    world.set_settings(&settings());
    for n in 1..4 {
        add(out, &mut graph, n - 1, n)?;
    }
    for (k, frame) in FRAMES.iter().enumerate() {
        frame.fill(&mut world)?;
        let (shares, active) = (Shares::dealt(&graph, WORKERS), graph.len());
        graph.step(&world, &shares)?;
        writeln!(out, "step {}: {}", k + 1, frame.title)?;
        write_step(out, &graph, active)?;
        write_impulses(&mut graph);
    }
    if let Err(refusal) = graph.look_up(ContactId(2)) {
        writeln!(out, "look up of contact 2: {}", refusal.number())?;
    }
    add(out, &mut graph, 0, 3)
}

#[allow(dead_code, reason = "tests/stack.rs calls `play`")]
fn main() -> Result<(), Box<dyn Error>> {
    play(&mut io::stdout().lock())
}
