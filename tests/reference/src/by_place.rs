//! Matching by place: a model after the specification, not avian's Rust. It is the carried over `match_contacts` (`contact_types`) but
//! for one condition: features are compared only if neither of the new point's is unknown.

use super::{ContactManifold, ContactPoint, PackedFeatureId};
use crate::branches::reach_by_place as reach;

/// The matching setting, by its mark. The Rust has none and matches by number.
#[derive(Clone, Copy, Debug, Default, PartialEq, Eq)]
pub enum Matching {
    ByNumber = 0,
    /// Also that of a step which does not name the setting.
    #[default]
    ByPlace = 1,
}

impl ContactManifold {
    /// `match_contacts` by place.
    #[inline]
    pub fn match_contacts_by_place(
        &mut self,
        previous_contacts: &[ContactPoint],
        distance_threshold: f32,
    ) {
        let distance_threshold_squared = distance_threshold.powi(2);

        for contact in self.points.iter_mut() {
            let unknown_features = contact.feature_id1 == PackedFeatureId::UNKNOWN
                || contact.feature_id2 == PackedFeatureId::UNKNOWN;
            reach!(by super::reached::parted(contact, previous_contacts, distance_threshold_squared));

            for previous_contact in previous_contacts.iter() {
                // The condition that the Rust does not have.
                if !unknown_features
                    && ((contact.feature_id1 == previous_contact.feature_id1
                        && contact.feature_id2 == previous_contact.feature_id2)
                        || (contact.feature_id2 == previous_contact.feature_id1
                            && contact.feature_id1 == previous_contact.feature_id2))
                {
                    reach!(by super::reached::placed_by_features(contact, previous_contact));
                    contact.warm_start_normal_impulse = previous_contact.warm_start_normal_impulse;
                    contact.warm_start_tangent_impulse =
                        previous_contact.warm_start_tangent_impulse;
                    break;
                }

                if unknown_features
                    && (contact.anchor1.distance_squared(previous_contact.anchor1)
                        < distance_threshold_squared
                        && contact.anchor2.distance_squared(previous_contact.anchor2)
                            < distance_threshold_squared)
                    || (contact.anchor1.distance_squared(previous_contact.anchor2)
                        < distance_threshold_squared
                        && contact.anchor2.distance_squared(previous_contact.anchor1)
                            < distance_threshold_squared)
                {
                    reach!(by super::reached::placed_by_anchors(
                        contact,
                        previous_contact,
                        distance_threshold_squared,
                    ));
                    contact.warm_start_normal_impulse = previous_contact.warm_start_normal_impulse;
                    contact.warm_start_tangent_impulse =
                        previous_contact.warm_start_tangent_impulse;
                    break;
                }
                reach!(by super::reached::not_placed(contact, previous_contact, distance_threshold_squared));
            }
        }
    }
}
