//! What a step reads besides the graph and the shares: settings, colliders, bodies and proposed manifolds.

use crate::ids::{ContactId, PackedFeatureId};
use crate::layout::*;
use crate::refusal::Refusal;
use crate::rows::RowLengths;
use crate::words::{count, put, put_float, put_floats, put_mark, put_optional};

/// How two coefficients combine. Of two different rules the later one is taken.
#[derive(Clone, Copy, Debug, Default, PartialEq, Eq, PartialOrd, Ord, Hash)]
#[repr(u32)]
pub enum CoefficientCombine {
    /// 1: half the sum.
    #[default]
    Average = 1,
    /// 2: the root of the product.
    GeometricMean = 2,
    /// 3: the smaller.
    Min = 3,
    /// 4: the product.
    Multiply = 4,
    /// 5: the larger.
    Max = 5,
}

/// A coefficient of friction or restitution, and its combining rule.
#[derive(Clone, Copy, Debug, Default, PartialEq)]
pub struct Coefficient {
    /// The coefficient.
    pub value: f32,
    /// How it combines with the other side's.
    pub combine_rule: CoefficientCombine,
}

impl Coefficient {
    fn words(self) -> [u32; 2] {
        [self.value.to_bits(), self.combine_rule as u32]
    }
}

/// How the new points of a pair are matched with its old ones, whose warm start impulses they take over.
///
/// With `match_contacts`, and where a pair has at most 4 new manifolds, each is matched with all old manifolds of the pair, one after
/// another; what a later one gives replaces what an earlier one gave. For a new point the points of an old manifold are tried in their order, and the first that matches gives its impulses.
/// An old point matches in one of these ways:
///
/// | By | When |
/// |---|---|
/// | features straight | new 1 = old 1 and new 2 = old 2 |
/// | features crossed | new 2 = old 1 and new 1 = old 2 |
/// | anchors straight | a feature of the new point is 0, and new anchor 1 is close to old anchor 1, new anchor 2 to old anchor 2 |
/// | anchors crossed | new anchor 1 is close to old anchor 2, new anchor 2 to old anchor 1, whatever the features |
///
/// Close: the squared distance is below the square of 0.1 length units. By number and by place differ in the features alone; the
/// default is what a step takes that names neither.
#[derive(Clone, Copy, Debug, Default, PartialEq, Eq, Hash)]
#[repr(u32)]
pub enum Matching {
    /// 0: features are compared, 0 as any other number. So a new point of features 0 and 0 matches every old point of features 0
    /// and 0, however far away.
    ByNumber = 0,
    /// 1: features are compared only if neither of the new point's two is 0. A new point that has a 0 matches by its anchors alone.
    #[default]
    ByPlace = 1,
}

/// The settings of a step.
#[derive(Clone, Copy, Debug, PartialEq)]
pub struct Settings {
    /// The time of a step.
    pub step_time: f32,
    /// The length unit, by which the next two are multiplied.
    pub length_unit: f32,
    /// The distance up to which a point counts as touching.
    pub contact_tolerance: f32,
    /// How far a pair may move before its contacts are made anew; 0 turns recycling off.
    pub recycle_distance: f32,
    /// The squared cosine of half the angle that a body may turn before its contacts are made anew.
    pub recycle_cosine: f32,
    /// Whether new points take over the impulses of the old points they match.
    pub match_contacts: bool,
    /// The friction of a collider that has none, and whose body has none.
    pub default_friction: Coefficient,
    /// The restitution of a collider that has none.
    pub default_restitution: Coefficient,
    /// Which points match, where `match_contacts` is set. `None` does not name it, and then points match by place: a caller that
    /// counts on features of 0 being compared must name [`Matching::ByNumber`].
    pub matching: Option<Matching>,
}

impl Default for Settings {
    /// Step time 1/64, length unit 1, contact tolerance 0.005, recycle distance 0.05, squared cosine 0.99, friction 0.5, restitution
    /// 0, both averaged. Contacts are matched, by place, since the matching is not named.
    fn default() -> Self {
        Settings {
            step_time: 1.0 / 64.0,
            length_unit: 1.0,
            contact_tolerance: 0.005,
            recycle_distance: 0.05,
            recycle_cosine: 0.99,
            match_contacts: true,
            default_friction: Coefficient {
                value: 0.5,
                combine_rule: CoefficientCombine::Average,
            },
            default_restitution: Coefficient::default(),
            matching: None,
        }
    }
}

impl Settings {
    fn write(&self, words: &mut [u32; SETTINGS_LENGTH]) {
        words.fill(0);
        put_float(words, SETTINGS_STEP_TIME, self.step_time);
        put_float(words, SETTINGS_LENGTH_UNIT, self.length_unit);
        put_float(words, SETTINGS_CONTACT_TOLERANCE, self.contact_tolerance);
        put_float(words, SETTINGS_RECYCLE_DISTANCE, self.recycle_distance);
        put_float(words, SETTINGS_RECYCLE_COSINE, self.recycle_cosine);
        put_mark(words, SETTINGS_MATCH_CONTACTS, self.match_contacts);
        put(words, SETTINGS_FRICTION, &self.default_friction.words());
        put(
            words,
            SETTINGS_RESTITUTION,
            &self.default_restitution.words(),
        );
        put_optional(words, SETTINGS_MATCHING, self.matching.map(|m| [m as u32]));
    }
}

/// A collider.
#[derive(Clone, Copy, Debug, PartialEq)]
pub struct Collider {
    /// The body it is attached to.
    pub body: Option<u32>,
    /// The lower corner of its box.
    pub lower: [f32; 3],
    /// The upper corner of its box.
    pub upper: [f32; 3],
    /// Its position in world space.
    pub position: [f32; 3],
    /// The layers it belongs to.
    pub memberships: u32,
    /// The layers it interacts with.
    pub filters: u32,
    /// Its friction, else its body's.
    pub friction: Option<Coefficient>,
    /// Its restitution, else the default.
    pub restitution: Option<Coefficient>,
    /// Its margin, else its body's.
    pub margin: Option<f32>,
    /// A sensor touches and generates no constraints.
    pub sensor: bool,
}

impl Default for Collider {
    /// An empty box at the origin, on layer 1, interacting with all, and nothing else.
    fn default() -> Self {
        Collider {
            body: None,
            lower: [0.0; 3],
            upper: [0.0; 3],
            position: [0.0; 3],
            memberships: 1,
            filters: u32::MAX,
            friction: None,
            restitution: None,
            margin: None,
            sensor: false,
        }
    }
}

impl Collider {
    fn write(&self, words: &mut [u32; COLLIDER_SIZE]) {
        words.fill(0);
        put_mark(words, PRESENCE, true);
        put_optional(words, COLLIDER_BODY, self.body.map(|n| [n]));
        put_floats(words, COLLIDER_LOWER, self.lower);
        put_floats(words, COLLIDER_UPPER, self.upper);
        put_floats(words, COLLIDER_POSITION, self.position);
        put(words, COLLIDER_MEMBERSHIPS, &[self.memberships]);
        put(words, COLLIDER_FILTERS, &[self.filters]);
        put_optional(
            words,
            COLLIDER_FRICTION,
            self.friction.map(Coefficient::words),
        );
        put_optional(
            words,
            COLLIDER_RESTITUTION,
            self.restitution.map(Coefficient::words),
        );
        put_optional(words, COLLIDER_MARGIN, self.margin.map(|m| [m.to_bits()]));
        put_mark(words, COLLIDER_SENSOR, self.sensor);
    }
}

/// A body.
#[derive(Clone, Copy, Debug, PartialEq)]
pub struct Body {
    /// Whether it never moves.
    pub is_static: bool,
    /// Its position in world space.
    pub position: [f32; 3],
    /// Its rotation (x, y, z, w).
    pub rotation: [f32; 4],
    /// Its centre of mass, in its own space.
    pub center_of_mass: [f32; 3],
    /// Its linear velocity.
    pub linear_velocity: [f32; 3],
    /// Its angular velocity.
    pub angular_velocity: [f32; 3],
    /// Its friction, for colliders that have none.
    pub friction: Option<Coefficient>,
    /// Its margin, for colliders that have none.
    pub margin: Option<f32>,
    /// How far ahead contacts are looked for.
    pub speculative_maximum: Option<f32>,
    /// The distance of its farthest point from its centre of mass.
    pub sweep_radius: f32,
}

impl Default for Body {
    /// A body at rest at the origin, not turned, that moves.
    fn default() -> Self {
        Body {
            is_static: false,
            position: [0.0; 3],
            rotation: [0.0, 0.0, 0.0, 1.0],
            center_of_mass: [0.0; 3],
            linear_velocity: [0.0; 3],
            angular_velocity: [0.0; 3],
            friction: None,
            margin: None,
            speculative_maximum: None,
            sweep_radius: 0.0,
        }
    }
}

impl Body {
    fn write(&self, words: &mut [u32; BODY_SIZE]) {
        words.fill(0);
        put_mark(words, PRESENCE, true);
        put_mark(words, BODY_STATIC, self.is_static);
        put_floats(words, BODY_POSITION, self.position);
        put_floats(words, BODY_ROTATION, self.rotation);
        put_floats(words, BODY_CENTER_OF_MASS, self.center_of_mass);
        put_floats(words, BODY_LINEAR_VELOCITY, self.linear_velocity);
        put_floats(words, BODY_ANGULAR_VELOCITY, self.angular_velocity);
        put_optional(words, BODY_FRICTION, self.friction.map(Coefficient::words));
        put_optional(words, BODY_MARGIN, self.margin.map(|m| [m.to_bits()]));
        put_optional(
            words,
            BODY_SPECULATIVE_MAXIMUM,
            self.speculative_maximum.map(|m| [m.to_bits()]),
        );
        put_float(words, BODY_SWEEP_RADIUS, self.sweep_radius);
    }
}

/// A point that a shape proposes. The rest of a stored point is made by the step.
#[derive(Clone, Copy, Debug, Default, PartialEq)]
pub struct ProposedPoint {
    /// The point relative to the first collider's position, in world space.
    pub anchor1: [f32; 3],
    /// The point relative to the second collider's position, in world space.
    pub anchor2: [f32; 3],
    /// The point in world space.
    pub point: [f32; 3],
    /// How deep the shapes overlap; negative where they are apart.
    pub penetration: f32,
    /// The first shape's feature.
    pub feature_id1: PackedFeatureId,
    /// The second shape's feature.
    pub feature_id2: PackedFeatureId,
}

impl ProposedPoint {
    fn write(&self, words: &mut [u32; PROPOSED_POINT_SIZE]) {
        let [x1, y1, z1] = self.anchor1;
        let [x2, y2, z2] = self.anchor2;
        let [x, y, z] = self.point;
        put_floats(words, 0, [x1, y1, z1, x2, y2, z2, x, y, z]);
        put_float(words, PROPOSED_POINT_PENETRATION, self.penetration);
        let features = [self.feature_id1.0, self.feature_id2.0];
        put(words, PROPOSED_POINT_FEATURES, &features);
    }
}

/// A manifold that a shape proposes.
#[derive(Clone, Debug, Default, PartialEq)]
pub struct ProposedManifold {
    /// The normal, in world space, from the first shape towards the second.
    pub normal: [f32; 3],
    /// The points; over [`PROPOSED_POINTS`], 24, are refused by the step.
    pub points: Vec<ProposedPoint>,
}

impl ProposedManifold {
    fn write(&self, words: &mut [u32; PROPOSED_MANIFOLD_SIZE]) {
        put(words, 0, &[count(self.points.len())]);
        put_floats(words, PROPOSED_MANIFOLD_NORMAL, self.normal);
        let (places, _) = words[PROPOSED_MANIFOLD_POINTS..].as_chunks_mut();
        for (place, point) in places.iter_mut().zip(&self.points) {
            point.write(place);
        }
    }
}

/// The presence mark of a collider's or a body's record.
const PRESENCE: usize = 0;

/// The rows that a step reads besides the graph and the shares, for graphs of one capacity.
///
/// Numbers, marks and rules that are out of range can only come in through the words; a step refuses them.
#[derive(Clone, Debug, PartialEq, Eq)]
pub struct World {
    settings: [u32; SETTINGS_LENGTH],
    colliders: Vec<u32>,
    bodies: Vec<u32>,
    proposals: Vec<u32>,
}

impl World {
    /// Rows for graphs of that capacity: no collider, no body, nothing proposed, and the default settings. Refusal 1 where the
    /// capacity is not 1 to 256.
    pub fn new(capacity: u32) -> Result<World, Refusal> {
        let lengths = RowLengths::of(capacity)?;
        let mut world = World {
            settings: [0; SETTINGS_LENGTH],
            colliders: vec![0; lengths.colliders],
            bodies: vec![0; lengths.bodies],
            proposals: vec![0; lengths.proposals],
        };
        world.set_settings(&Settings::default());
        Ok(world)
    }

    /// Writes the settings.
    pub fn set_settings(&mut self, settings: &Settings) {
        settings.write(&mut self.settings);
    }

    /// Writes collider `n` and marks it present. Refusal 2 where the number is 256 or more.
    pub fn set_collider(&mut self, n: u32, collider: &Collider) -> Result<(), Refusal> {
        let record = record(&mut self.colliders, n).ok_or(Refusal::OutOfRange)?;
        collider.write(record);
        Ok(())
    }

    /// Makes collider `n` absent. Refusal 2 where the number is 256 or more.
    pub fn clear_collider(&mut self, n: u32) -> Result<(), Refusal> {
        let record: &mut [u32; COLLIDER_SIZE] =
            record(&mut self.colliders, n).ok_or(Refusal::OutOfRange)?;
        record.fill(0);
        Ok(())
    }

    /// Writes body `n` and marks it present. Refusal 2 where the number is 128 or more.
    pub fn set_body(&mut self, n: u32, body: &Body) -> Result<(), Refusal> {
        let record = record(&mut self.bodies, n).ok_or(Refusal::OutOfRange)?;
        body.write(record);
        Ok(())
    }

    /// Makes body `n` absent. Refusal 2 where the number is 128 or more.
    pub fn clear_body(&mut self, n: u32) -> Result<(), Refusal> {
        let record: &mut [u32; BODY_SIZE] =
            record(&mut self.bodies, n).ok_or(Refusal::OutOfRange)?;
        record.fill(0);
        Ok(())
    }

    /// Writes what is proposed for a contact: the hook's answer, which only pairs that are modified heed, and the manifolds.
    /// Refusal 9 where the id is not below the capacity. More manifolds or points than there is room for are counted all the same,
    /// and a step then answers refusal 6.
    pub fn propose(
        &mut self,
        contact: ContactId,
        hook: bool,
        manifolds: &[ProposedManifold],
    ) -> Result<(), Refusal> {
        let proposal: &mut [u32; PROPOSAL_SIZE] =
            record(&mut self.proposals, contact.0).ok_or(Refusal::NoContact)?;
        put_mark(proposal, PROPOSAL_HOOK, hook);
        put(proposal, PROPOSAL_COUNT, &[count(manifolds.len())]);
        let (places, _) = proposal[PROPOSAL_MANIFOLDS..].as_chunks_mut();
        for (place, manifold) in places.iter_mut().zip(manifolds) {
            manifold.write(place);
        }
        Ok(())
    }

    /// Proposes nothing for any contact, with the hook saying no.
    pub fn clear_proposals(&mut self) {
        self.proposals.fill(0);
    }

    /// The words of the settings.
    pub fn settings_words(&self) -> &[u32] {
        &self.settings
    }

    /// The words of the settings, to write.
    pub fn settings_words_mut(&mut self) -> &mut [u32] {
        &mut self.settings
    }

    /// The words of the colliders.
    pub fn colliders_words(&self) -> &[u32] {
        &self.colliders
    }

    /// The words of the colliders, to write.
    pub fn colliders_words_mut(&mut self) -> &mut [u32] {
        &mut self.colliders
    }

    /// The words of the bodies.
    pub fn bodies_words(&self) -> &[u32] {
        &self.bodies
    }

    /// The words of the bodies, to write.
    pub fn bodies_words_mut(&mut self) -> &mut [u32] {
        &mut self.bodies
    }

    /// The words of the proposals.
    pub fn proposals_words(&self) -> &[u32] {
        &self.proposals
    }

    /// The words of the proposals, to write.
    pub fn proposals_words_mut(&mut self) -> &mut [u32] {
        &mut self.proposals
    }

    /// Settings, colliders, bodies and proposals, to write.
    pub(crate) fn rows_mut(&mut self) -> [&mut [u32]; 4] {
        [
            &mut self.settings,
            &mut self.colliders,
            &mut self.bodies,
            &mut self.proposals,
        ]
    }
}

/// Record `n` of a row of records.
fn record<const SIZE: usize>(row: &mut [u32], n: u32) -> Option<&mut [u32; SIZE]> {
    row.as_chunks_mut().0.get_mut(n as usize)
}
