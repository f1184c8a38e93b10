//! Whether both sides hold the same, field by field.
//!
//! Floats are compared by their bits; all NaNs are equal. Zeros of opposite sign are equal in three fields alone, because
//! `f32::max` and `f32::min` leave the sign open where both operands are zeros, and a value of theirs is written nowhere else:
//! - a manifold's friction and restitution, if the pair's last full update combined them by the minimum or the maximum;
//! - the reported contact distance, the margins' sum plus the result of a maximum.

use reference::layout::*;
use reference::{
    self, CoefficientCombine, CollisionEvent, ContactEdge, ContactEdgeFlags, ContactManifold,
    ContactPair, ContactPairFlags, ContactPoint, ContactRecyclingCache, ContactStatusChange,
    Entity, NarrowPhase, Quat, Vec3,
};
use sardinerod::{Change, ContactGraph, Event, Manifold, Pair, Point};
use std::fmt::{self, Debug};

/// A field that differs, and what each side has there.
#[derive(Clone, Debug)]
pub struct Difference {
    pub field: String,
    pub reference: String,
    pub library: String,
}

pub type Compared = Result<(), Difference>;

impl fmt::Display for Difference {
    fn fmt(&self, f: &mut fmt::Formatter<'_>) -> fmt::Result {
        let Self {
            field,
            reference,
            library,
        } = self;
        write!(f, "{field}: reference {reference}, library {library}")
    }
}

impl Difference {
    pub fn new(field: &str, reference: impl Debug, library: impl Debug) -> Self {
        Self {
            field: field.to_string(),
            reference: format!("{reference:?}"),
            library: format!("{library:?}"),
        }
    }

    fn within(mut self, part: &str, number: impl Debug) -> Self {
        self.field = format!("{part} {number:?}: {}", self.field);
        self
    }
}

pub fn same<T: PartialEq + Debug>(field: &str, reference: T, library: T) -> Compared {
    if reference == library {
        Ok(())
    } else {
        Err(Difference::new(field, reference, library))
    }
}

/// All NaNs are equal.
fn same_float(field: &str, reference: f32, library: f32) -> Compared {
    if reference.to_bits() == library.to_bits() || reference.is_nan() && library.is_nan() {
        Ok(())
    } else {
        let show = |x: f32| format!("{x:?} ({:08X})", x.to_bits());
        Err(Difference {
            field: field.to_string(),
            reference: show(reference),
            library: show(library),
        })
    }
}

fn same_float_or_zero(field: &str, reference: f32, library: f32) -> Compared {
    if reference == 0.0 && library == 0.0 {
        Ok(())
    } else {
        same_float(field, reference, library)
    }
}

fn same_floats<const N: usize>(field: &str, reference: [f32; N], library: [f32; N]) -> Compared {
    for (a, b) in reference.into_iter().zip(library) {
        same_float(field, a, b)?;
    }
    Ok(())
}

fn same_vec3(field: &str, reference: Vec3, library: [f32; 3]) -> Compared {
    same_floats(field, [reference.x, reference.y, reference.z], library)
}

fn same_quat(field: &str, reference: Quat, library: [f32; 4]) -> Compared {
    let Quat { x, y, z, w } = reference;
    same_floats(field, [x, y, z, w], library)
}

fn same_body(field: &str, reference: Option<Entity>, library: Option<u32>) -> Compared {
    same(field, reference.map(|body| body.0), library)
}

/// The rules that each contact's friction and restitution were last combined by, by contact id.
pub type CombinedBy = [[CoefficientCombine; 2]];

/// The graph: ids given, pairs in order, every field, free ids in the order freed.
pub fn graph(
    graph: &reference::ContactGraph,
    combined_by: &CombinedBy,
    library: &ContactGraph,
) -> Compared {
    let given = graph.edges.raw_edges().len();
    same("ids given", given as u32, library.ids_given())?;
    let free = graph.edges.free().iter().map(|id| id.0);
    if !free.clone().eq(library.free_ids().map(|id| id.0)) {
        let freed: Vec<u32> = library.free_ids().map(|id| id.0).collect();
        return Err(Difference::new(
            "free ids",
            free.collect::<Vec<u32>>(),
            freed,
        ));
    }
    same("pairs", graph.active_pairs.len(), library.len())?;
    for (place, (contacts, view)) in graph.active_pairs.iter().zip(library.pairs()).enumerate() {
        let edge = graph.get_edge_by_id(contacts.contact_id).unwrap();
        let combined_by = combined_by[contacts.contact_id.0 as usize];
        pair(edge, contacts, combined_by, &view).map_err(|d| d.within("pair", place))?;
    }
    Ok(())
}

fn pair(
    edge: &ContactEdge,
    contacts: &ContactPair,
    combined_by: [CoefficientCombine; 2],
    view: &Pair,
) -> Compared {
    same("id", contacts.contact_id.0, view.id().0)?;
    same("edge's id", edge.id.0, view.id().0)?;
    same("pair_index", edge.pair_index as u32, view.pair_index())?;
    let colliders = [view.collider1(), view.collider2()].map(Entity);
    same(
        "colliders",
        [contacts.collider1, contacts.collider2],
        colliders,
    )?;
    same(
        "edge's colliders",
        [edge.collider1, edge.collider2],
        colliders,
    )?;
    let bodies = [view.body1(), view.body2()].map(|body| body.map(Entity));
    same("bodies", [contacts.body1, contacts.body2], bodies)?;
    same("edge's bodies", [edge.body1, edge.body2], bodies)?;
    same("edge's flags", edge.flags, edge_flags(view))?;
    same("flags", contacts.flags, pair_flags(view))?;
    let change = contacts.manifold_count_change;
    same(
        "manifold_count_change",
        change,
        view.manifold_count_change(),
    )?;
    let distance = contacts.speculative_distance;
    same_float(
        "speculative_distance",
        distance,
        view.speculative_distance(),
    )?;
    cache(&contacts.recycling_cache, view)?;
    same(
        "manifolds",
        contacts.manifolds.len(),
        view.manifolds().len(),
    )?;
    for (m, (ours, theirs)) in contacts.manifolds.iter().zip(view.manifolds()).enumerate() {
        manifold(ours, combined_by, &theirs).map_err(|d| d.within("manifold", m))?;
    }
    Ok(())
}

fn edge_flags(view: &Pair) -> ContactEdgeFlags {
    let mut flags = ContactEdgeFlags::empty();
    flags.set(ContactEdgeFlags::TOUCHING, view.edge_touching());
    flags.set(ContactEdgeFlags::CONTACT_EVENTS, view.contact_events());
    flags
}

fn pair_flags(view: &Pair) -> ContactPairFlags {
    use ContactPairFlags as F;
    let mut flags = F::empty();
    flags.set(F::TOUCHING, view.touching());
    flags.set(F::DISJOINT_AABB, view.disjoint_aabb());
    flags.set(F::STARTED_TOUCHING, view.started_touching());
    flags.set(F::STOPPED_TOUCHING, view.stopped_touching());
    flags.set(F::GENERATE_CONSTRAINTS, view.generate_constraints());
    flags.set(
        F::STARTED_GENERATING_CONSTRAINTS,
        view.started_generating_constraints(),
    );
    flags.set(F::STATIC1, view.static1());
    flags.set(F::STATIC2, view.static2());
    flags.set(F::MODIFY_CONTACTS, view.modify_contacts());
    flags
}

fn cache(reference: &Option<ContactRecyclingCache>, view: &Pair) -> Compared {
    let library = view.recycling_cache();
    same("cache's mark", reference.is_some(), library.is_some())?;
    let (Some(a), Some(b)) = (reference, library) else {
        return Ok(());
    };
    same_quat("cache's rotation1", a.rotation1, b.rotation1)?;
    same_quat("cache's rotation2", a.rotation2, b.rotation2)?;
    same_vec3(
        "cache's relative_translation",
        a.relative_translation,
        b.relative_translation,
    )?;
    same_quat(
        "cache's relative_rotation",
        a.relative_rotation,
        b.relative_rotation,
    )
}

fn coefficient(
    field: &str,
    reference: f32,
    combined_by: CoefficientCombine,
    library: f32,
) -> Compared {
    match combined_by {
        CoefficientCombine::Min | CoefficientCombine::Max => {
            same_float_or_zero(field, reference, library)
        }
        _ => same_float(field, reference, library),
    }
}

fn manifold(
    reference: &ContactManifold,
    combined_by: [CoefficientCombine; 2],
    view: &Manifold,
) -> Compared {
    let [friction_by, restitution_by] = combined_by;
    same_vec3("normal", reference.normal, view.normal())?;
    coefficient("friction", reference.friction, friction_by, view.friction())?;
    coefficient(
        "restitution",
        reference.restitution,
        restitution_by,
        view.restitution(),
    )?;
    same_vec3(
        "tangent_velocity",
        reference.tangent_velocity,
        view.tangent_velocity(),
    )?;
    same("points", reference.points.len(), view.points().len())?;
    for (k, (ours, theirs)) in reference.points.iter().zip(view.points()).enumerate() {
        point(ours, &theirs).map_err(|d| d.within("point", k))?;
    }
    Ok(())
}

fn point(a: &ContactPoint, b: &Point) -> Compared {
    same_vec3("anchor1", a.anchor1, b.anchor1)?;
    same_vec3("anchor2", a.anchor2, b.anchor2)?;
    same_vec3("point", a.point, b.point)?;
    same_float("penetration", a.penetration, b.penetration)?;
    same_float("base_penetration", a.base_penetration, b.base_penetration)?;
    same_float("normal_impulse", a.normal_impulse, b.normal_impulse)?;
    same_float("normal_speed", a.normal_speed, b.normal_speed)?;
    same_float(
        "warm_start_normal_impulse",
        a.warm_start_normal_impulse,
        b.warm_start_normal_impulse,
    )?;
    let tangent = a.warm_start_tangent_impulse;
    same_floats(
        "warm_start_tangent_impulse",
        [tangent.x, tangent.y],
        b.warm_start_tangent_impulse,
    )?;
    same("feature_id1", a.feature_id1.0, b.feature_id1.0)?;
    same("feature_id2", a.feature_id2.0, b.feature_id2.0)
}

/// An edge by value.
pub fn looked_up(reference: &ContactEdge, library: &sardinerod::ContactEdge) -> Compared {
    let flags = reference.flags;
    same("id", reference.id.0, library.id.0)?;
    same("collider1", reference.collider1.0, library.collider1)?;
    same("collider2", reference.collider2.0, library.collider2)?;
    same_body("body1", reference.body1, library.body1)?;
    same_body("body2", reference.body2, library.body2)?;
    same(
        "pair_index",
        reference.pair_index as u32,
        library.pair_index,
    )?;
    let touching = flags.contains(ContactEdgeFlags::TOUCHING);
    same("touching", touching, library.touching)?;
    same(
        "contact_events",
        reference.events_enabled(),
        library.contact_events,
    )
}

/// What the last accepted step wrote: events and changes in order, and by id the distance that the shape was asked for.
pub fn written(
    events: &[CollisionEvent],
    changes: &[ContactStatusChange],
    asked: &[Option<f32>],
    library: &ContactGraph,
) -> Compared {
    let (ours, theirs) = (events.iter().map(event), library.events());
    same("number of events", ours.len(), theirs.len())?;
    for (k, (a, b)) in ours.zip(theirs).enumerate() {
        same("view", a, b).map_err(|d| d.within("event", k))?;
        let words = &library.events_words()[EVENT_SIZE * k..][..EVENT_SIZE];
        same("words", &event_words(&a)[..], words).map_err(|d| d.within("event", k))?;
    }
    let (ours, theirs) = (changes.iter().map(change), library.changes());
    same("number of changes", ours.len(), theirs.len())?;
    for (k, (a, b)) in ours.zip(theirs).enumerate() {
        same("view", a, b).map_err(|d| d.within("change", k))?;
        let words = &library.changes_words()[CHANGE_SIZE * k..][..CHANGE_SIZE];
        same("words", &change_words(&a)[..], words).map_err(|d| d.within("change", k))?;
    }
    same(
        "number of distances",
        asked.len(),
        library.distances().len(),
    )?;
    for (id, (asked, distance)) in asked.iter().zip(library.distances()).enumerate() {
        match asked {
            Some(asked) => same_float_or_zero("distance", *asked, distance),
            None => same_float("distance", 0.0, distance),
        }
        .map_err(|d| d.within("id", id))?;
    }
    Ok(())
}

fn event(event: &CollisionEvent) -> Event {
    let number = |body: Option<Entity>| body.map(|body| body.0);
    match *event {
        CollisionEvent::CollisionStart {
            contact_id,
            collider1,
            collider2,
            body1,
            body2,
        } => Event::Started {
            contact: sardinerod::ContactId(contact_id.0),
            collider1: collider1.0,
            collider2: collider2.0,
            body1: number(body1),
            body2: number(body2),
        },
        CollisionEvent::CollisionEnd {
            contact_id,
            collider1,
            collider2,
            body1,
            body2,
        } => Event::Ended {
            contact: sardinerod::ContactId(contact_id.0),
            collider1: collider1.0,
            collider2: collider2.0,
            body1: number(body1),
            body2: number(body2),
        },
    }
}

/// Bodies are a mark and a number, 0 and 0 where there is none.
fn event_words(event: &Event) -> [u32; EVENT_SIZE] {
    let (kind, contact, colliders, bodies) = match *event {
        Event::Started {
            contact,
            collider1,
            collider2,
            body1,
            body2,
        } => (
            EVENT_STARTED,
            contact,
            [collider1, collider2],
            [body1, body2],
        ),
        Event::Ended {
            contact,
            collider1,
            collider2,
            body1,
            body2,
        } => (EVENT_ENDED, contact, [collider1, collider2], [body1, body2]),
    };
    let mut words = [0; EVENT_SIZE];
    words[EVENT_KIND] = kind;
    words[EVENT_CONTACT] = contact.0;
    [words[EVENT_COLLIDER1], words[EVENT_COLLIDER2]] = colliders;
    for (mark, body) in [EVENT_BODY1, EVENT_BODY2].into_iter().zip(bodies) {
        if let Some(number) = body {
            words[mark] = 1;
            words[mark + 1] = number;
        }
    }
    words
}

/// 0 where it says nothing.
fn change_words(change: &Change) -> [u32; CHANGE_SIZE] {
    let (kind, contact, bodies, delta) = match *change {
        Change::Start { contact } => (CHANGE_START, contact, [0, 0], 0),
        Change::Stop {
            contact,
            body1,
            body2,
        } => (CHANGE_STOP, contact, [body1, body2], 0),
        Change::Count {
            contact,
            body1,
            body2,
            delta,
        } => (CHANGE_COUNT, contact, [body1, body2], delta),
    };
    let mut words = [0; CHANGE_SIZE];
    words[CHANGE_KIND] = kind;
    words[CHANGE_CONTACT] = contact.0;
    [words[CHANGE_BODY1], words[CHANGE_BODY2]] = bodies;
    words[CHANGE_DELTA] = delta as u32;
    words
}

fn change(change: &ContactStatusChange) -> Change {
    match *change {
        ContactStatusChange::StartedGeneratingConstraints(id) => Change::Start {
            contact: sardinerod::ContactId(id.0),
        },
        ContactStatusChange::StoppedGeneratingConstraints {
            contact_id,
            body1,
            body2,
        } => Change::Stop {
            contact: sardinerod::ContactId(contact_id.0),
            body1: body1.0,
            body2: body2.0,
        },
        ContactStatusChange::ManifoldCountChanged {
            contact,
            body1,
            body2,
            delta,
        } => Change::Count {
            contact: sardinerod::ContactId(contact.0),
            body1: body1.0,
            body2: body2.0,
            delta,
        },
    }
}

/// Bit `id` of part w is set exactly if worker w lists the contact and its update sets its bit; all other bits are 0.
pub fn bits(reference: &NarrowPhase, capacity: usize, library: &[u64]) -> Compared {
    let words = bit_words(capacity);
    same("bit words", MOST_WORKERS * words, library.len())?;
    for (worker, part) in library.chunks(words).enumerate() {
        let context = reference.thread_locals.get(worker);
        for (k, word) in part.iter().enumerate() {
            let set =
                |bit: &usize| context.is_some_and(|c| c.contact_status_bits.get(BITS * k + bit));
            let expected = (0..BITS)
                .filter(set)
                .fold(0u64, |word, bit| word | 1 << bit);
            same("bits", expected, *word)
                .map_err(|d| d.within("word", k).within("worker", worker))?;
        }
    }
    Ok(())
}
