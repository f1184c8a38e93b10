//! From src/collision/narrow_phase/system_param.rs, with the feature `parallel`. Workers and the pairs that each takes are given.

use super::*;
use crate::branches::reach;

/// A thread-local context for the narrow phase contact updates.
#[derive(Clone, Debug, Default)]
pub struct NarrowPhaseThreadContext {
    /// Bit vector for tracking contact status changes.
    pub contact_status_bits: BitVec,
    /// The number of contacts recycled by the narrow phase on this thread.
    pub recycled_count: u32,
}

/// A change in a contact's solver status, recorded by the narrow phase
/// and applied by the solver.
#[derive(Clone, Copy, Debug, PartialEq, Eq)]
pub enum ContactStatusChange {
    /// The contact started touching and should generate constraints.
    StartedGeneratingConstraints(ContactId),
    /// The contact stopped touching and should stop generating constraints.
    StoppedGeneratingConstraints {
        contact_id: ContactId,
        body1: Entity,
        body2: Entity,
    },
    /// The number of manifolds of a touching contact changed by `delta`.
    ManifoldCountChanged {
        contact: ContactId,
        body1: Entity,
        body2: Entity,
        delta: i32,
    },
}

/// `CollisionStart` and `CollisionEnd`, with the contact's id.
#[derive(Clone, Copy, Debug, PartialEq, Eq)]
pub enum CollisionEvent {
    CollisionStart {
        contact_id: ContactId,
        collider1: Entity,
        collider2: Entity,
        body1: Option<Entity>,
        body2: Option<Entity>,
    },
    CollisionEnd {
        contact_id: ContactId,
        collider1: Entity,
        collider2: Entity,
        body1: Option<Entity>,
        body2: Option<Entity>,
    },
}

use CollisionEvent::{CollisionEnd, CollisionStart};

#[derive(Clone, Debug, Default)]
pub struct CollisionDiagnostics {
    pub recycled_count: u32,
}

/// A system parameter for managing the narrow phase.
#[derive(Clone, Debug)]
pub struct NarrowPhase {
    pub collider_query: Query<ColliderQuery>,
    pub body_query: Query<RigidBodyQuery>,
    pub contact_graph: ContactGraph,
    /// The queue of contact status changess.
    pub contact_status_changes: Vec<ContactStatusChange>,
    pub contact_status_bits: BitVec,
    pub thread_locals: Vec<NarrowPhaseThreadContext>,
    pub config: NarrowPhaseConfig,
    pub default_friction: Friction,
    pub default_restitution: Restitution,
    pub length_unit: f32,
    /// Not in the Rust, which matches by number: the matching setting.
    pub matching: Matching,
    /// Not in the Rust: which rules each contact's coefficients were last combined by, friction and restitution. Noted with
    /// the counts alone.
    pub combined_by: Vec<[CoefficientCombine; 2]>,
}

/// Stands in for `crate::utils::par_for_each`: each worker's list places, the workers one after another.
#[inline]
fn par_for_each(
    pairs: &mut [ContactPair],
    workers: &[Vec<usize>],
    mut f: impl FnMut(usize, &mut ContactPair),
) {
    for (worker, places) in workers.iter().enumerate() {
        for place in places {
            f(worker, &mut pairs[*place]);
        }
    }
}

impl NarrowPhase {
    /// Updates the narrow phase.
    ///
    /// - Updates each active [`ContactPair`] in the [`ContactGraph`].
    /// - Sends collision events when colliders start or stop touching.
    /// - Removes contact pairs from the [`ContactGraph`] when AABBs stop overlapping.
    /// - Records [`ContactStatusChange`]s for the solver to apply.
    pub fn update(
        &mut self,
        collision_events: &mut Vec<CollisionEvent>,
        delta_secs: f32,
        hooks: &Hooks,
        shapes: &mut Shapes,
        diagnostics: &mut CollisionDiagnostics,
        workers: &[Vec<usize>],
    ) {
        // Update contacts for all contact pairs.
        self.update_contacts(delta_secs, hooks, shapes, diagnostics, workers);

        // Process contact status changes, iterating over set bits serially to maintain determinism.
        //
        // The narrow phase only updates the `ContactGraph` and records `ContactStatusChange`s.
        // The solver applies those changes to the constraint graph and physics islands.
        //
        // Iterating over set bits is done efficiently with the "count trailing zeros" method:
        // https://lemire.me/blog/2018/02/21/iterating-over-set-bits-quickly/
        for (i, mut bits) in self.contact_status_bits.blocks().enumerate() {
            while bits != 0 {
                reach!("visited: bit word 0" + i);
                let trailing_zeros = bits.trailing_zeros();
                let contact_id = ContactId(i as u32 * 64 + trailing_zeros);

                let (contact_edge, contact_pair) = self
                    .contact_graph
                    .get_mut_by_id(contact_id)
                    .unwrap_or_else(|| panic!("Contact pair not found for {contact_id:?}"));

                // Three options:
                // 1. The AABBs are no longer overlapping, and the contact pair should be removed.
                // 2. The colliders started touching, and a collision started event should be sent.
                // 3. The colliders stopped touching, and a collision ended event should be sent.
                if contact_pair.aabbs_disjoint() {
                    // Send a collision ended event if the contact pair was touching.
                    reach!(by reached::disjoint_event(contact_edge));
                    let send_event = contact_edge
                        .flags
                        .contains(ContactEdgeFlags::TOUCHING | ContactEdgeFlags::CONTACT_EVENTS);
                    if send_event {
                        collision_events.push(CollisionEnd {
                            contact_id,
                            collider1: contact_pair.collider1,
                            collider2: contact_pair.collider2,
                            body1: contact_pair.body1,
                            body2: contact_pair.body2,
                        });
                    }

                    let pair_key = PairKey::new(
                        contact_pair.collider1.index_u32(),
                        contact_pair.collider2.index_u32(),
                    );

                    reach!("disjoint: not generating" + reached::stop(contact_pair));
                    if contact_pair.generates_constraints()
                        && let (Some(body1), Some(body2)) = (contact_pair.body1, contact_pair.body2)
                    {
                        self.contact_status_changes.push(
                            ContactStatusChange::StoppedGeneratingConstraints {
                                contact_id,
                                body1,
                                body2,
                            },
                        );
                    }

                    // Remove the contact edge from the contact graph.
                    self.contact_graph.remove_edge_by_id(&pair_key, contact_id);
                } else if contact_pair.collision_started() {
                    // Send collision started event.
                    if contact_edge.events_enabled() {
                        reach!("started: event");
                        collision_events.push(CollisionStart {
                            contact_id,
                            collider1: contact_pair.collider1,
                            collider2: contact_pair.collider2,
                            body1: contact_pair.body1,
                            body2: contact_pair.body2,
                        });
                    } else {
                        reach!("started: no event");
                    }

                    contact_edge.flags.set(ContactEdgeFlags::TOUCHING, true);

                    // Clear the status change flags.
                    reach!(by reached::started(contact_pair));
                    contact_pair
                        .flags
                        .set(ContactPairFlags::STARTED_TOUCHING, false);
                    contact_pair
                        .flags
                        .set(ContactPairFlags::STARTED_GENERATING_CONSTRAINTS, false);

                    if contact_pair.generates_constraints() {
                        self.contact_status_changes.push(
                            ContactStatusChange::StartedGeneratingConstraints(contact_id),
                        );
                    }
                } else if contact_pair
                    .flags
                    .contains(ContactPairFlags::STOPPED_TOUCHING)
                {
                    // Send collision ended event.
                    if contact_edge.events_enabled() {
                        reach!("stopped: event");
                        collision_events.push(CollisionEnd {
                            contact_id,
                            collider1: contact_pair.collider1,
                            collider2: contact_pair.collider2,
                            body1: contact_pair.body1,
                            body2: contact_pair.body2,
                        });
                    } else {
                        reach!("stopped: no event");
                    }

                    contact_edge.flags.set(ContactEdgeFlags::TOUCHING, false);

                    // Clear the status change flags.
                    contact_pair
                        .flags
                        .set(ContactPairFlags::STOPPED_TOUCHING, false);

                    reach!("stopped: not generating" + reached::stop(contact_pair));
                    if contact_pair.generates_constraints()
                        && let (Some(body1), Some(body2)) = (contact_pair.body1, contact_pair.body2)
                    {
                        self.contact_status_changes.push(
                            ContactStatusChange::StoppedGeneratingConstraints {
                                contact_id,
                                body1,
                                body2,
                            },
                        );
                    }
                } else if contact_pair.is_touching()
                    && contact_pair
                        .flags
                        .contains(ContactPairFlags::STARTED_GENERATING_CONSTRAINTS)
                {
                    // The contact pair should start generating constraints.
                    reach!(if (contact_pair.manifold_count_change == 0) {
                        "started generating, touching"
                    } else {
                        "started generating, touching, count change left"
                    });
                    contact_pair
                        .flags
                        .set(ContactPairFlags::STARTED_GENERATING_CONSTRAINTS, false);

                    self.contact_status_changes.push(
                        ContactStatusChange::StartedGeneratingConstraints(contact_id),
                    );
                } else if contact_pair.is_touching()
                    && contact_pair.generates_constraints()
                    && contact_pair.manifold_count_change != 0
                {
                    // The contact pair is still touching, but the manifold count changed.
                    // Let the solver add or remove the corresponding constraints.
                    let delta = contact_pair.manifold_count_change;
                    contact_pair.manifold_count_change = 0;

                    if let (Some(body1), Some(body2)) = (contact_pair.body1, contact_pair.body2) {
                        reach!(if (delta < 0) {
                            "count change written, fewer"
                        } else {
                            "count change written, more"
                        });
                        self.contact_status_changes.push(
                            ContactStatusChange::ManifoldCountChanged {
                                contact: contact_id,
                                body1,
                                body2,
                                delta,
                            },
                        );
                    } else {
                        reach!("count change not written, a body unnamed");
                    }
                } else {
                    reach!(if (contact_pair.is_touching()) {
                        "no case: count change, not generating"
                    } else {
                        "no case: not touching"
                    });
                }

                // Clear the least significant set bit.
                bits &= bits - 1;
            }
        }
    }

    /// Updates contacts for all contact pairs in the [`ContactGraph`].
    ///
    /// Also updates the [`ContactStatusBits`] resource to track status changes for each contact pair.
    /// Set bits correspond to contact pairs that were either added or removed,
    /// while unset bits correspond to contact pairs that were persisted.
    pub fn update_contacts(
        &mut self,
        delta_secs: f32,
        hooks: &Hooks,
        shapes: &mut Shapes,
        diagnostics: &mut CollisionDiagnostics,
        workers: &[Vec<usize>],
    ) {
        let length_unit = self.length_unit;
        let contact_tolerance = length_unit * self.config.contact_tolerance;
        let recycle_distance = length_unit * self.config.recycle_distance;
        let recycle_distance_non_touching = recycle_distance.min(contact_tolerance);
        let recycle_angular_distance = self.config.recycle_angular_distance;
        let inv_delta_secs = delta_secs.recip();

        // Contact bit vecs must be sized based on the full contact capacity,
        // not the number of active contact pairs, because pair indices
        // are unstable and can be invalidated when pairs are removed.
        let bit_count = self.contact_graph.edges.raw_edges().len();

        // Clear the bit vector used to track status changes for each contact pair.
        self.contact_status_bits.set_bit_count_and_clear(bit_count);

        self.thread_locals
            .resize_with(workers.len(), Default::default);
        self.thread_locals.iter_mut().for_each(|thread_locals| {
            thread_locals
                .contact_status_bits
                .set_bit_count_and_clear(bit_count);
            thread_locals.recycled_count = 0;
        });

        // Compute contacts for all contact pairs in parallel or serially
        // based on the `parallel` feature.
        //
        // If parallelism is used, status changes are written to thread-local bit vectors,
        // where set bits correspond to contact pairs that were added or removed.
        // At the end, the bit vectors are combined using bit-wise OR.
        par_for_each(
            self.contact_graph.active_pairs_mut(),
            workers,
            |worker, contacts| {
                let contact_id = contacts.contact_id.0 as usize;

                // Get the thread-local narrow phase context.
                let NarrowPhaseThreadContext {
                    contact_status_bits,
                    recycled_count,
                } = &mut self.thread_locals[worker];

                // Get the colliders for the contact pair.
                let Ok([collider1, collider2]) = self
                    .collider_query
                    .get_many([contacts.collider1, contacts.collider2])
                else {
                    reach!("way: skipped");
                    return;
                };

                // An extra speculative distance requested for this timestep.
                // This can be used to ensure that TOI impacts are handled by the discrete solver,
                // or more generally for speculative contacts.
                let mut speculative_distance = core::mem::take(&mut contacts.speculative_distance);

                // Check if the AABBs of the colliders still overlap and the contact pair is valid.
                let overlap = collider1.enlarged_aabb.intersects(
                    &collider2
                        .enlarged_aabb
                        .grow(Vector::splat(speculative_distance)),
                );
                reach!(by reached::boxes(collider1, collider2, speculative_distance));

                // Also check if the collision layers are still compatible and the contact pair is valid.
                if !overlap || !collider1.layers.interacts_with(collider2.layers) {
                    // The AABBs no longer overlap. The contact pair should be removed.
                    reach!(by reached::apart(overlap, collider1, collider2));
                    contacts.flags.set(ContactPairFlags::DISJOINT_AABB, true);
                    contact_status_bits.set(contact_id);
                } else {
                    // The AABBs overlap. Compute contacts.

                    let was_touching = contacts.flags.contains(ContactPairFlags::TOUCHING);

                    let body1_bundle = collider1
                        .of
                        .and_then(|ColliderOf { body }| self.body_query.get(body).ok());
                    let body2_bundle = collider2
                        .of
                        .and_then(|ColliderOf { body }| self.body_query.get(body).ok());
                    reach!(by reached::body(collider1, body1_bundle));
                    reach!(by reached::body(collider2, body2_bundle));

                    // The rigid body's friction, restitution, and collision margin
                    // will be used if the collider doesn't have them specified.
                    let (
                        is_static1,
                        collider_offset1,
                        world_com1,
                        body_pos1,
                        body_rot1,
                        lin_vel1,
                        ang_vel1,
                        rb_friction1,
                        rb_collision_margin1,
                        speculative_ccd1,
                        size_metrics1,
                    ) = body1_bundle
                        .as_ref()
                        .map(|body| {
                            (
                                body.is_static,
                                collider1.position - body.position,
                                body.rotation * body.center_of_mass,
                                body.position,
                                body.rotation,
                                body.linear_velocity,
                                body.angular_velocity,
                                body.friction,
                                body.collision_margin,
                                body.speculative_ccd,
                                body.size_metrics,
                            )
                        })
                        .unwrap_or_default();
                    let (
                        is_static2,
                        collider_offset2,
                        world_com2,
                        body_pos2,
                        body_rot2,
                        lin_vel2,
                        ang_vel2,
                        rb_friction2,
                        rb_collision_margin2,
                        speculative_ccd2,
                        size_metrics2,
                    ) = body2_bundle
                        .as_ref()
                        .map(|body| {
                            (
                                body.is_static,
                                collider2.position - body.position,
                                body.rotation * body.center_of_mass,
                                body.position,
                                body.rotation,
                                body.linear_velocity,
                                body.angular_velocity,
                                body.friction,
                                body.collision_margin,
                                body.speculative_ccd,
                                body.size_metrics,
                            )
                        })
                        .unwrap_or_default();

                    // Store these to avoid having to query for the bodies
                    // when processing status changes for the constraint graph.
                    contacts.flags.set(ContactPairFlags::STATIC1, is_static1);
                    contacts.flags.set(ContactPairFlags::STATIC2, is_static2);

                    // Compute the relative pose of the bodies in the local space of the first body.
                    let inv_rot1 = body_rot1.inverse();
                    let pos12 = body_pos2 - body_pos1;
                    let rot12_1 = inv_rot1 * body_rot2;
                    let pos12_1 = inv_rot1 * pos12;

                    // Contact recycling optimization, based on Box2D/Box3D by Erin Catto.
                    // This is inspired by persistent contact manifolds used in some physics engines,
                    // but allows larger relative motion, and has fewer tuning parameters (distance and angle).
                    // This has a huge impact on the performance and stability of stacks and resting bodies.
                    'recycle: {
                        if recycle_distance <= 0.0 {
                            // Recycling is disabled.
                            reach!(if (recycle_distance < 0.0) {
                                "abandoned: negative recycle distance"
                            } else {
                                "abandoned: recycle distance 0"
                            });
                            break 'recycle;
                        }

                        let Some(cache) = contacts.recycling_cache.as_ref() else {
                            // No previous contact data to recycle.
                            reach!("abandoned: no cache");
                            break 'recycle;
                        };

                        {
                            let angle1 = body_rot1.dot(cache.rotation1);
                            let angle2 = body_rot2.dot(cache.rotation2);
                            let min_angle = (angle1 * angle1).min(angle2 * angle2);
                            if min_angle <= recycle_angular_distance {
                                // The relative rotation has changed too much.
                                reach!(if (min_angle < recycle_angular_distance) {
                                    "abandoned: angle"
                                } else {
                                    "abandoned: angle, equal"
                                });
                                break 'recycle;
                            }
                            reach!(by reached::angle(min_angle, recycle_angular_distance));
                        }

                        let sweep_radius1 = if is_static1 {
                            0.0
                        } else {
                            size_metrics1.sweep_radius
                        };
                        let sweep_radius2 = if is_static2 {
                            0.0
                        } else {
                            size_metrics2.sweep_radius
                        };
                        let max_extent = sweep_radius1.max(sweep_radius2);
                        let distance_squared = pos12_1.distance_squared(cache.relative_translation);

                        let tolerance = if was_touching {
                            recycle_distance
                        } else {
                            recycle_distance_non_touching
                        };

                        {
                            if distance_squared >= tolerance * tolerance {
                                // The relative motion is too large.
                                reach!(match (
                                    distance_squared == tolerance * tolerance,
                                    was_touching
                                ) {
                                    (true, _) => "abandoned: distance, equal",
                                    (false, true) => "abandoned: distance, touching",
                                    (false, false) => "abandoned: distance, not touching",
                                });
                                break 'recycle;
                            } else {
                                // Check the maximum motion along the arc of the relative rotation.
                                let distance = distance_squared.sqrt();
                                let slack = tolerance - distance;
                                let delta_rotation = cache.relative_rotation.inverse() * rot12_1;
                                let arc = delta_rotation.chord_length() * max_extent;
                                if arc >= slack {
                                    // The relative motion is too large.
                                    reach!(if was_touching {
                                        "abandoned: arc, touching"
                                    } else {
                                        "abandoned: arc, not touching"
                                    });
                                    break 'recycle;
                                }
                                reach!(
                                    match (distance_squared.is_nan(), arc.is_nan(), was_touching) {
                                        (true, true, _) => "recycled with NaN distance and arc",
                                        (true, false, _) => "recycled with NaN distance",
                                        (false, true, _) => "recycled with NaN arc",
                                        (false, false, true) => "recycled, touching",
                                        (false, false, false) => "recycled, not touching",
                                    }
                                );
                            }
                        }

                        // The relative motion is small enough for contact recycling!
                        let delta_rot1 = body_rot1 * cache.rotation1.inverse();
                        let delta_rot2 = body_rot2 * cache.rotation2.inverse();
                        let delta_rot1 = Mat3::from_quat(delta_rot1);
                        let delta_rot2 = Mat3::from_quat(delta_rot2);
                        let com12 = world_com2 - world_com1 + pos12;

                        contacts.manifolds.iter_mut().for_each(|manifold| {
                            manifold.points.iter_mut().for_each(|point| {
                                // Keep anchors but update separation. This eliminates jitter.
                                let r1 = delta_rot1 * point.anchor1;
                                let r2 = delta_rot2 * point.anchor2;
                                let delta_separation = com12 + (r2 - r1);
                                point.penetration =
                                    point.base_penetration - delta_separation.dot(manifold.normal);
                                reach!(if (point.penetration.is_nan()) {
                                    "recycled point, NaN"
                                } else {
                                    "recycled point"
                                });
                            });
                        });

                        *recycled_count += 1;
                        reach!(match (body1_bundle, body2_bundle) {
                            (Some(_), Some(_)) => "way: recycled, two bodies",
                            (None, None) => "way: recycled, no body",
                            _ => "way: recycled, one body",
                        });

                        return;
                    }

                    // Update the recycling cache for the next frame.
                    contacts.recycling_cache = Some(ContactRecyclingCache {
                        rotation1: body_rot1,
                        rotation2: body_rot2,
                        relative_translation: pos12_1,
                        relative_rotation: rot12_1,
                    });

                    // If either collider is a sensor or either body is disabled, no constraints should be generated.
                    let is_disabled = body1_bundle.is_none()
                        || body2_bundle.is_none()
                        || collider1.is_sensor
                        || collider2.is_sensor;
                    reach!(match () {
                        _ if body1_bundle.is_none() => "disabled: no body 1",
                        _ if body2_bundle.is_none() => "disabled: no body 2",
                        _ if collider1.is_sensor => "disabled: collider 1 a sensor",
                        _ if collider2.is_sensor => "disabled: collider 2 a sensor",
                        _ => "enabled",
                    });

                    reach!(match (contacts.generates_constraints(), !is_disabled) {
                        (false, true) => "started generating",
                        (true, false) => "stopped generating",
                        (true, true) => "generating still",
                        (false, false) => "not generating still",
                    });
                    if !is_disabled && !contacts.generates_constraints() {
                        // This can happen when a sensor is removed, or when a collider is attached to a body.
                        contacts
                            .flags
                            .set(ContactPairFlags::STARTED_GENERATING_CONSTRAINTS, true);
                        contact_status_bits.set(contact_id);
                    }

                    contacts
                        .flags
                        .set(ContactPairFlags::GENERATE_CONSTRAINTS, !is_disabled);

                    // Get combined friction and restitution coefficients of the colliders
                    // or the bodies they are attached to. Fall back to the global defaults.
                    let friction = collider1
                        .friction
                        .or(rb_friction1)
                        .unwrap_or(self.default_friction)
                        .combine(
                            collider2
                                .friction
                                .or(rb_friction2)
                                .unwrap_or(self.default_friction),
                        );
                    let restitution = collider1
                        .restitution
                        .unwrap_or(self.default_restitution)
                        .combine(collider2.restitution.unwrap_or(self.default_restitution));
                    if cfg!(feature = "counts") {
                        self.combined_by[contact_id] =
                            [friction.combine_rule, restitution.combine_rule];
                    }
                    let friction = friction.dynamic_coefficient;
                    let restitution = restitution.coefficient;

                    // Use the collider's own collision margin if specified, and fall back to the body's
                    // collision margin.
                    //
                    // The collision margin adds artificial thickness to colliders for performance
                    // and stability. See the `CollisionMargin` documentation for more details.
                    let collision_margin1 = collider1
                        .collision_margin
                        .or(rb_collision_margin1)
                        .map_or(0.0, |margin| margin.0);
                    let collision_margin2 = collider2
                        .collision_margin
                        .or(rb_collision_margin2)
                        .map_or(0.0, |margin| margin.0);
                    let collision_margin_sum = collision_margin1 + collision_margin2;
                    reach!(by reached::material(collider1, rb_friction1, rb_collision_margin1));
                    reach!(by reached::material(collider2, rb_friction2, rb_collision_margin2));

                    // The relative linear velocity is used below to compute the normal speed
                    // at each contact point for restitution and speculative contact pruning.
                    let relative_linear_velocity = lin_vel2 - lin_vel1;

                    // Compute the effective speculative margin from the opt-in `SpeculativeCcd` component.
                    let max_distance1 = speculative_ccd1.map_or(0.0, |s| s.max_distance);
                    let max_distance2 = speculative_ccd2.map_or(0.0, |s| s.max_distance);
                    reach!(by reached::maximum(speculative_ccd1));
                    reach!(by reached::maximum(speculative_ccd2));

                    if max_distance1 != 0.0 || max_distance2 != 0.0 {
                        // Clamp each body's contribution to its maximum speculative distance.
                        let clamped_vel1 = if max_distance1 < f32::MAX {
                            lin_vel1.clamp_length_max(max_distance1 * inv_delta_secs)
                        } else {
                            lin_vel1
                        };
                        let clamped_vel2 = if max_distance2 < f32::MAX {
                            lin_vel2.clamp_length_max(max_distance2 * inv_delta_secs)
                        } else {
                            lin_vel2
                        };

                        // The margin is how far the bodies are expected to move relative to each other.
                        let margin = (clamped_vel2 - clamped_vel1).length() * delta_secs;
                        reach!(match () {
                            _ if margin.is_nan() => "swept distance NaN",
                            _ if margin >= speculative_distance => "swept distance larger",
                            _ => "swept distance not larger",
                        });
                        speculative_distance = margin.max(speculative_distance);
                    } else {
                        reach!("no swept distance");
                    }

                    // Ensure that the speculative distance is at least as large as the contact tolerance.
                    reach!(if (speculative_distance >= contact_tolerance) {
                        "distance by speculation"
                    } else {
                        "distance by tolerance"
                    });
                    speculative_distance = speculative_distance.max(contact_tolerance);

                    // The maximum distance at which contacts are detected.
                    let max_contact_distance = collision_margin_sum + speculative_distance;

                    // Save the old manifolds for warm starting.
                    let old_manifolds = contacts.manifolds.clone();

                    // Compute the contact manifolds.
                    shapes.contact_manifolds(
                        contact_id,
                        max_contact_distance,
                        &mut contacts.manifolds,
                    );
                    reach!("manifolds proposed: 0" + contacts.manifolds.len());

                    // Transform and prune contact data.
                    contacts.manifolds.retain_mut(|manifold| {
                        // Set the initial surface properties.
                        manifold.friction = friction;
                        manifold.restitution = restitution;
                        manifold.tangent_velocity = Vec3::ZERO;

                        let normal = manifold.normal;

                        // Transform and prune contact points.
                        manifold.retain_points_mut(|point| {
                            // Transform contact points to be relative to the centers of mass of the bodies.
                            point.anchor1 += collider_offset1 - world_com1;
                            point.anchor2 += collider_offset2 - world_com2;

                            // Add the collision margin to the penetration depth.
                            point.penetration += collision_margin_sum;

                            // Store the base penetration depth for contact recycling.
                            point.base_penetration = point.penetration;

                            // Compute the relative velocity along the contact normal.
                            let relative_velocity = relative_linear_velocity
                                + ang_vel2.cross(point.anchor2)
                                - ang_vel1.cross(point.anchor1);
                            let normal_speed = relative_velocity.dot(normal);
                            point.normal_speed = normal_speed;

                            // Keep the contact if (1) the separation distance is below the required threshold,
                            // or if (2) the bodies are expected to come into contact within the next time step.
                            let kept = -point.penetration < speculative_distance || {
                                let delta_distance = normal_speed * delta_secs;
                                delta_distance - point.penetration < speculative_distance
                            };
                            reach!(by reached::point(kept, point.penetration, speculative_distance));
                            kept
                        });
                        reach!(by reached::points_left(manifold.points.len()));

                        // Prune extra contact points.
                        if manifold.points.len() > 4 {
                            manifold.prune_points();
                        }

                        !manifold.points.is_empty()
                    });

                    // Check if the colliders are now touching.
                    let mut touching = !contacts.manifolds.is_empty();
                    reach!(by reached::hook(touching, contacts, hooks));

                    if touching && contacts.flags.contains(ContactPairFlags::MODIFY_CONTACTS) {
                        touching = hooks.modify_contacts(contacts);
                        if !touching {
                            contacts.manifolds.clear();
                        }
                    }

                    contacts.flags.set(ContactPairFlags::TOUCHING, touching);

                    reach!(by reached::matching(
                        contacts.manifolds.len(),
                        self.config.match_contacts,
                        self.matching
                    ));
                    if contacts.manifolds.len() <= 4 && self.config.match_contacts {
                        let distance_threshold = 0.1 * self.length_unit;

                        for manifold in contacts.manifolds.iter_mut() {
                            for previous_manifold in old_manifolds.iter() {
                                // Not in the Rust: by place, the model is asked.
                                if self.matching == Matching::ByPlace {
                                    manifold.match_contacts_by_place(
                                        &previous_manifold.points,
                                        distance_threshold,
                                    );
                                    continue;
                                }
                                manifold
                                    .match_contacts(&previous_manifold.points, distance_threshold);
                            }
                        }
                    }

                    // Record how many manifolds were added or removed.
                    // This is used to add or remove contact constraints in the `ConstraintGraph` for persistent contacts.
                    contacts.manifold_count_change =
                        contacts.manifolds.len() as i32 - old_manifolds.len() as i32;

                    if touching && !was_touching {
                        // The colliders started touching.
                        reach!("started touching");
                        contacts.flags.set(ContactPairFlags::STARTED_TOUCHING, true);
                        contact_status_bits.set(contact_id);
                    } else if !touching && was_touching {
                        // The colliders stopped touching.
                        reach!("stopped touching");
                        contacts.flags.set(ContactPairFlags::STOPPED_TOUCHING, true);
                        contact_status_bits.set(contact_id);
                    } else if contacts.manifold_count_change != 0 {
                        // The manifold count changed, but the colliders are still touching.
                        // This is used to add or remove contact constraints in the `ConstraintGraph`.
                        reach!(if (contacts.manifold_count_change < 0) {
                            "fewer manifolds"
                        } else {
                            "more manifolds"
                        });
                        contact_status_bits.set(contact_id);
                    } else {
                        reach!("as many manifolds");
                    }
                    reach!(if (contact_status_bits.get(contact_id)) {
                        "way: full, bit set"
                    } else {
                        "way: full, bit not set"
                    });
                    reach!("manifolds kept: 0" + contacts.manifolds.len());
                };
            },
        );

        // Combine the thread-local bit vectors serially using bit-wise OR.
        self.thread_locals.iter_mut().for_each(|thread_context| {
            let contact_status_bits = &thread_context.contact_status_bits;
            self.contact_status_bits.or(contact_status_bits);
            diagnostics.recycled_count += thread_context.recycled_count;
        });
    }
}
