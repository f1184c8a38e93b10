//! Traces, read and played on typed values. From the specification's 'Play a recorded load' and the listed format of lines alone: no
//! other reader or player was looked at.

mod by_line;
mod reached;

pub use by_line::{Asked, Filled, Player as LinePlayer, filled, next_line};

use super::*;
use crate::branches::reach_in_trace as reach;
use crate::layout::*;
use reached::Noted;
use std::collections::HashMap;
use std::iter::Peekable;
use std::vec::IntoIter;

/// Bytes of the longest trace that the program takes.
pub const MOST_BYTES: usize = 64 * 1024;

/// The program's capacity.
pub const CAPACITY: usize = 4;

const WRONG_LENGTH: u32 = 1;
const OUT_OF_RANGE: u32 = 2;
const SAME_COLLIDER: u32 = 3;
const PAIR_EXISTS: u32 = 4;
const GRAPH_FULL: u32 = 5;
const PROPOSAL_TOO_LARGE: u32 = 6;
pub const UNREADABLE_LINE: u32 = 10;

/// What the program prints.
pub fn program(trace: &[u8]) -> Vec<u8> {
    if trace.len() > MOST_BYTES {
        return number_alone(WRONG_LENGTH);
    }
    play(trace, CAPACITY).concat()
}

/// What each line prints, in turn, up to one that is unreadable.
pub fn play(trace: &[u8], capacity: usize) -> Vec<Vec<u8>> {
    let mut player = Player::new(capacity);
    let mut printed = vec![];
    for line in trace.split_inclusive(|byte| *byte == b'\n') {
        match read(line).and_then(|read| player.play(read)) {
            Some(output) => printed.push(output),
            None => {
                printed.push(number_alone(UNREADABLE_LINE));
                return printed;
            }
        }
    }
    player.ends();
    printed
}

/// What stands for a refusal.
pub fn number_alone(number: u32) -> Vec<u8> {
    format!("{number}\n").into_bytes()
}

// ---- Lines.

enum Line {
    Addition(Addition),
    Settings(Settings),
    Collider(u32, ColliderQuery),
    Body(u32, Box<RigidBodyQuery>),
    Hook(Colliders, bool),
    Manifold(Colliders, Vector),
    Point(ContactPoint),
    Go,
}

/// The two colliders of a pair, as a line names them.
#[derive(Clone, Copy)]
struct Colliders(u32, u32);

impl Colliders {
    fn key(self) -> PairKey {
        PairKey::new(self.0, self.1)
    }
}

struct Settings {
    delta_secs: f32,
    length_unit: f32,
    config: NarrowPhaseConfig,
    default_friction: Friction,
    default_restitution: Restitution,
    matching: Matching,
}

/// A line, and whether its numbers are in their ranges. One that is not stands for some other, but not among the words: there, an
/// optional value is its mark and its words, zeros where it is absent.
struct Read {
    line: Line,
    words: Vec<u32>,
    in_range: bool,
}

/// A line with its LF, if it fits a record.
fn read(line: &[u8]) -> Option<Read> {
    let Some((b'\n', text)) = line.split_last() else {
        reach!("unreadable: without LF");
        return None;
    };
    let fields: Vec<&[u8]> = text.split(|byte| *byte == b'\t').collect();
    let mut fields = Fields {
        left: fields.into_iter().peekable(),
        words: vec![],
        in_range: true,
    };
    let letter = fields.left.next()?;
    let line = match letter {
        b"A" => Line::Addition(fields.addition()?),
        b"T" => Line::Settings(fields.settings()?),
        b"C" => Line::Collider(fields.collider_number()?, fields.collider()?),
        b"B" => Line::Body(fields.body_number()?, Box::new(fields.body()?)),
        b"H" => Line::Hook(fields.colliders()?, fields.mark()?),
        b"M" => Line::Manifold(fields.colliders()?, fields.vector()?),
        b"P" => Line::Point(fields.point()?),
        b"G" => Line::Go,
        _ => {
            reach!("unreadable: letter");
            return None;
        }
    };
    if fields.left.next().is_some() {
        reach!(by reached::left_over(&line));
        return None;
    }
    Some(Read {
        line,
        words: fields.words,
        in_range: fields.in_range,
    })
}

/// A line's fields.
struct Fields<'a> {
    left: Peekable<IntoIter<&'a [u8]>>,
    words: Vec<u32>,
    in_range: bool,
}

impl<'a> Fields<'a> {
    fn field(&mut self) -> Option<&'a [u8]> {
        let field = self.left.next();
        if field.is_none() {
            reach!("unreadable: a field missing");
        }
        field
    }

    fn number(&mut self) -> Option<u32> {
        let field = self.field()?;
        if field.is_empty() || !field.iter().all(u8::is_ascii_digit) {
            reach!("unreadable: not a whole number");
            return None;
        }
        let number = std::str::from_utf8(field).ok()?.parse().ok();
        reach!(by reached::number(field, number));
        self.words.extend(number);
        number
    }

    fn float(&mut self) -> Option<f32> {
        let field = self.field()?;
        if field.len() != 8 || !field.iter().all(u8::is_ascii_hexdigit) {
            reach!("unreadable: not a float");
            return None;
        }
        let bits = u32::from_str_radix(std::str::from_utf8(field).ok()?, 16).ok()?;
        reach!(by reached::float(field, f32::from_bits(bits)));
        self.words.push(bits);
        Some(f32::from_bits(bits))
    }

    /// What is said, of so many words, or a dash.
    fn optional<T>(
        &mut self,
        words: usize,
        read: impl Fn(&mut Self) -> Option<T>,
    ) -> Option<Option<T>> {
        if self.left.next_if(|field| *field == b"-").is_some() {
            reach!("optional: absent");
            self.words.extend(std::iter::repeat_n(0, 1 + words));
            return Some(None);
        }
        reach!("optional: not a dash");
        self.words.push(1);
        read(self).map(Some)
    }

    fn below(&mut self, limit: usize) -> Option<u32> {
        let number = self.number()?;
        if number as usize >= limit {
            self.in_range = false;
        }
        Some(number)
    }

    fn collider_number(&mut self) -> Option<u32> {
        let number = self.below(COLLIDERS)?;
        if number as usize >= COLLIDERS {
            reach!("out of range: collider");
        }
        Some(number)
    }

    fn body_number(&mut self) -> Option<u32> {
        let number = self.below(BODIES)?;
        if number as usize >= BODIES {
            reach!("out of range: body");
        }
        Some(number)
    }

    fn mark(&mut self) -> Option<bool> {
        let number = self.below(2)?;
        if number > 1 {
            reach!("out of range: mark");
        }
        Some(number == 1)
    }

    fn rule(&mut self) -> Option<CoefficientCombine> {
        let number = self.number()? as usize;
        if (1..=RULES).contains(&number) {
            return Some(CoefficientCombine::ALL[number - 1]);
        }
        reach!("out of range: rule");
        self.in_range = false;
        Some(CoefficientCombine::Average)
    }

    fn vector(&mut self) -> Option<Vector> {
        Some(vec3(self.float()?, self.float()?, self.float()?))
    }

    fn rotation(&mut self) -> Option<Rot> {
        Some(quat(
            self.float()?,
            self.float()?,
            self.float()?,
            self.float()?,
        ))
    }

    fn friction(&mut self) -> Option<Friction> {
        Some(Friction {
            dynamic_coefficient: self.float()?,
            combine_rule: self.rule()?,
        })
    }

    fn restitution(&mut self) -> Option<Restitution> {
        Some(Restitution {
            coefficient: self.float()?,
            combine_rule: self.rule()?,
        })
    }

    fn margin(&mut self) -> Option<Option<CollisionMargin>> {
        Some(self.optional(1, Self::float)?.map(CollisionMargin))
    }

    fn colliders(&mut self) -> Option<Colliders> {
        Some(Colliders(self.collider_number()?, self.collider_number()?))
    }

    // Each record's fields stand in the order of the struct, as the expressions of a struct are evaluated.

    fn addition(&mut self) -> Option<Addition> {
        Some(Addition {
            collider1: Entity(self.collider_number()?),
            collider2: Entity(self.collider_number()?),
            body1: self.optional(1, Self::body_number)?.map(Entity),
            body2: self.optional(1, Self::body_number)?.map(Entity),
            contact_events: self.mark()?,
            modify_contacts: self.mark()?,
            speculative_distance: self.float()?,
        })
    }

    fn settings(&mut self) -> Option<Settings> {
        Some(Settings {
            delta_secs: self.float()?,
            length_unit: self.float()?,
            config: NarrowPhaseConfig {
                contact_tolerance: self.float()?,
                recycle_distance: self.float()?,
                recycle_angular_distance: self.float()?,
                match_contacts: self.mark()?,
            },
            default_friction: self.friction()?,
            default_restitution: self.restitution()?,
            matching: self.matching()?,
        })
    }

    /// The last field of settings: a mark or a dash, or nothing at all. It is named to the step in any case, by number unless the
    /// mark says otherwise.
    fn matching(&mut self) -> Option<Matching> {
        self.words.push(1);
        let Some(field) = self.left.peek().copied() else {
            reach!("matching: the line ends before it");
            self.words.push(0);
            return Some(Matching::ByNumber);
        };
        if self.left.next_if_eq(b"-").is_some() {
            reach!("matching: a dash");
            self.words.push(0);
            return Some(Matching::ByNumber);
        }
        let by_place = self.mark();
        reach!(by reached::matching(field, by_place.and(self.words.last().copied())));
        Some(match by_place? {
            false => Matching::ByNumber,
            true => Matching::ByPlace,
        })
    }

    fn collider(&mut self) -> Option<ColliderQuery> {
        let of = self.optional(1, Self::body_number)?;
        Some(ColliderQuery {
            of: of.map(|body| ColliderOf { body: Entity(body) }),
            enlarged_aabb: ColliderAabb {
                min: self.vector()?,
                max: self.vector()?,
            },
            position: self.vector()?,
            layers: CollisionLayers {
                memberships: self.number()?,
                filters: self.number()?,
            },
            friction: self.optional(COEFFICIENT, Self::friction)?,
            restitution: self.optional(COEFFICIENT, Self::restitution)?,
            collision_margin: self.margin()?,
            is_sensor: self.mark()?,
        })
    }

    fn body(&mut self) -> Option<RigidBodyQuery> {
        Some(RigidBodyQuery {
            is_static: self.mark()?,
            position: self.vector()?,
            rotation: self.rotation()?,
            center_of_mass: self.vector()?,
            linear_velocity: self.vector()?,
            angular_velocity: self.vector()?,
            friction: self.optional(COEFFICIENT, Self::friction)?,
            collision_margin: self.margin()?,
            speculative_ccd: self
                .optional(1, Self::float)?
                .map(|max_distance| SpeculativeCcd { max_distance }),
            size_metrics: BodySizeMetrics {
                sweep_radius: self.float()?,
            },
        })
    }

    fn point(&mut self) -> Option<ContactPoint> {
        let point = ContactPoint::new(
            self.vector()?,
            self.vector()?,
            self.vector()?,
            self.float()?,
        );
        let features = [
            PackedFeatureId(self.number()?),
            PackedFeatureId(self.number()?),
        ];
        Some(point.with_feature_ids(features[0], features[1]))
    }
}

// ---- The player.

/// What holds for the next go.
#[derive(Default)]
struct Records {
    settings: Option<Settings>,
    colliders: HashMap<u32, ColliderQuery>,
    bodies: HashMap<u32, RigidBodyQuery>,
    hooks: HashMap<PairKey, bool>,
    /// In the order of their lines, of all pairs.
    manifolds: Vec<(PairKey, ContactManifold)>,
    /// Whether a line since the last go had a number out of its range.
    strayed: bool,
    noted: Noted,
}

impl Records {
    fn hook(&self, key: PairKey) -> bool {
        self.hooks.get(&key).copied().unwrap_or(true)
    }

    fn manifolds(&self, key: PairKey) -> Vec<ContactManifold> {
        let own = self.manifolds.iter().filter(|(pair, _)| *pair == key);
        own.map(|(_, manifold)| manifold.clone()).collect()
    }
}

struct Player {
    graph: ContactGraph,
    capacity: usize,
    records: Records,
    /// Whether the line above is a manifold or a point.
    takes_points: bool,
}

impl Player {
    fn new(capacity: usize) -> Self {
        Self {
            graph: ContactGraph::default(),
            capacity,
            records: Records::default(),
            takes_points: false,
        }
    }

    /// What a line prints; none where no such line may stand here.
    fn play(&mut self, read: Read) -> Option<Vec<u8>> {
        self.records.noted.line(&read, self.takes_points);
        let took_points = std::mem::take(&mut self.takes_points);
        match read.line {
            Line::Addition(addition) => return Some(self.add(&addition, read.in_range)),
            Line::Go => return self.go(),
            _ => {}
        }
        if !read.in_range {
            self.records.strayed = true;
        }
        self.keep(read.line, took_points)?;
        Some(vec![])
    }

    fn keep(&mut self, line: Line, took_points: bool) -> Option<()> {
        let records = &mut self.records;
        match line {
            Line::Settings(settings) => records.settings = Some(settings),
            Line::Collider(number, collider) => {
                records.colliders.insert(number, collider);
            }
            Line::Body(number, body) => {
                records.bodies.insert(number, *body);
            }
            Line::Hook(colliders, answer) => {
                records.hooks.insert(colliders.key(), answer);
            }
            Line::Manifold(colliders, normal) => {
                let manifold = ContactManifold::new([], normal);
                records.manifolds.push((colliders.key(), manifold));
                self.takes_points = true;
            }
            Line::Point(point) => {
                if !took_points {
                    reach!("unreadable: a point not below a manifold or point");
                    return None;
                }
                records.manifolds.last_mut()?.1.points.push(point);
                self.takes_points = true;
            }
            Line::Addition(_) | Line::Go => {}
        }
        Some(())
    }

    fn add(&mut self, addition: &Addition, in_range: bool) -> Vec<u8> {
        let refusal = self.addition_refusal(addition, in_range);
        reach!(by reached::addition(refusal));
        if let Some(number) = refusal {
            return number_alone(number);
        }
        add_pair(&mut self.graph, addition).expect("the pair does not stand");
        vec![]
    }

    fn addition_refusal(&self, addition: &Addition, in_range: bool) -> Option<u32> {
        let Addition {
            collider1,
            collider2,
            ..
        } = *addition;
        if !in_range {
            Some(OUT_OF_RANGE)
        } else if collider1 == collider2 {
            Some(SAME_COLLIDER)
        } else if self.graph.contains(collider1, collider2) {
            Some(PAIR_EXISTS)
        } else if self.graph.active_pairs.len() == self.capacity {
            Some(GRAPH_FULL)
        } else {
            None
        }
    }

    /// Whatever is answered, the records are gone.
    fn go(&mut self) -> Option<Vec<u8>> {
        let mut records = std::mem::take(&mut self.records);
        let Some(settings) = records.settings.take() else {
            reach!(if (records.strayed) {
                "unreadable: a go without settings, out of range"
            } else {
                "unreadable: a go without settings"
            });
            return None;
        };
        reach!(by reached::go(&records, &self.graph));
        if records.strayed {
            return Some(number_alone(OUT_OF_RANGE));
        }
        let mut hooks = Hooks(vec![false; self.capacity]);
        let mut shapes = Shapes {
            proposed: vec![vec![]; self.capacity],
            asked: vec![None; self.capacity],
        };
        for pair in &self.graph.active_pairs {
            let key = key_of(pair);
            let id = pair.contact_id.0 as usize;
            hooks.0[id] = records.hook(key);
            shapes.proposed[id] = records.manifolds(key);
        }
        if shapes.proposed.iter().any(|proposed| overfull(proposed)) {
            return Some(number_alone(PROPOSAL_TOO_LARGE));
        }
        Some(self.step(&settings, &mut records, &hooks, &mut shapes))
    }

    /// By one worker, in the list's order.
    fn step(
        &mut self,
        settings: &Settings,
        records: &mut Records,
        hooks: &Hooks,
        shapes: &mut Shapes,
    ) -> Vec<u8> {
        let colliders = (0..COLLIDERS as u32).map(|n| records.colliders.remove(&n));
        let bodies = (0..BODIES as u32).map(|n| records.bodies.remove(&n));
        let places = (0..self.graph.active_pairs.len()).collect();
        let mut narrow_phase = NarrowPhase {
            collider_query: Query(colliders.collect()),
            body_query: Query(bodies.collect()),
            contact_graph: std::mem::take(&mut self.graph),
            contact_status_changes: vec![],
            contact_status_bits: BitVec::default(),
            thread_locals: vec![],
            config: settings.config,
            default_friction: settings.default_friction,
            default_restitution: settings.default_restitution,
            length_unit: settings.length_unit,
            matching: settings.matching,
            combined_by: vec![[CoefficientCombine::Average; 2]; self.capacity],
        };
        let mut events = vec![];
        let mut diagnostics = CollisionDiagnostics::default();
        narrow_phase.update(
            &mut events,
            settings.delta_secs,
            hooks,
            shapes,
            &mut diagnostics,
            &[places],
        );
        self.graph = narrow_phase.contact_graph;
        let changes = narrow_phase.contact_status_changes;
        reach!(match (settings.matching) {
            Matching::ByNumber => "step by number",
            Matching::ByPlace => "step by place",
        });
        reach!(by reached::step(&events, &changes, diagnostics.recycled_count));
        printed(&events, &changes)
    }

    fn ends(&self) {
        reach!(by reached::end(&self.records));
    }
}

fn key_of(pair: &ContactPair) -> PairKey {
    PairKey::new(pair.collider1.index_u32(), pair.collider2.index_u32())
}

fn overfull(proposed: &[ContactManifold]) -> bool {
    let points = |manifold: &ContactManifold| manifold.points.len();
    proposed.len() > MANIFOLDS || proposed.iter().any(|m| points(m) > PROPOSED_POINTS)
}

// ---- What is printed.

/// What a step prints.
pub fn printed(events: &[CollisionEvent], changes: &[ContactStatusChange]) -> Vec<u8> {
    let events = events.iter().map(event_line);
    let lines: String = events.chain(changes.iter().map(change_line)).collect();
    lines.into_bytes()
}

fn event_line(event: &CollisionEvent) -> String {
    let (kind, id, colliders, bodies) = match *event {
        CollisionEvent::CollisionStart {
            contact_id,
            collider1,
            collider2,
            body1,
            body2,
        } => (
            EVENT_STARTED,
            contact_id,
            [collider1, collider2],
            [body1, body2],
        ),
        CollisionEvent::CollisionEnd {
            contact_id,
            collider1,
            collider2,
            body1,
            body2,
        } => (
            EVENT_ENDED,
            contact_id,
            [collider1, collider2],
            [body1, body2],
        ),
    };
    let [collider1, collider2] = colliders.map(|collider| collider.0);
    let [body1, body2] = bodies.map(|body| body.map_or("-".to_string(), |body| body.0.to_string()));
    format!(
        "E\t{kind}\t{}\t{collider1}\t{collider2}\t{body1}\t{body2}\n",
        id.0
    )
}

fn change_line(change: &ContactStatusChange) -> String {
    match *change {
        ContactStatusChange::StartedGeneratingConstraints(id) => {
            format!("S\t{CHANGE_START}\t{}\t-\t-\t-\n", id.0)
        }
        ContactStatusChange::StoppedGeneratingConstraints {
            contact_id,
            body1,
            body2,
        } => format!(
            "S\t{CHANGE_STOP}\t{}\t{}\t{}\t-\n",
            contact_id.0, body1.0, body2.0
        ),
        ContactStatusChange::ManifoldCountChanged {
            contact,
            body1,
            body2,
            delta,
        } => format!(
            "S\t{CHANGE_COUNT}\t{}\t{}\t{}\t{delta}\n",
            contact.0, body1.0, body2.0
        ),
    }
}
