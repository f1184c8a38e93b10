//! An addition: the edge and the pair that the specification has for it, given to `ContactGraph::add_edge_with`.

use super::{ContactEdge, ContactEdgeFlags, ContactGraph, ContactId, ContactPairFlags, Entity};

#[derive(Clone, Copy, Debug)]
pub struct Addition {
    pub collider1: Entity,
    pub collider2: Entity,
    pub body1: Option<Entity>,
    pub body2: Option<Entity>,
    pub contact_events: bool,
    pub modify_contacts: bool,
    pub speculative_distance: f32,
}

/// The new contact's id, or none if the pair stands already.
pub fn add_pair(graph: &mut ContactGraph, a: &Addition) -> Option<ContactId> {
    let mut contact_edge = ContactEdge::new(a.collider1, a.collider2);
    contact_edge.body1 = a.body1;
    contact_edge.body2 = a.body2;
    contact_edge
        .flags
        .set(ContactEdgeFlags::CONTACT_EVENTS, a.contact_events);
    graph.add_edge_with(contact_edge, |pair| {
        pair.body1 = a.body1;
        pair.body2 = a.body2;
        pair.flags
            .set(ContactPairFlags::MODIFY_CONTACTS, a.modify_contacts);
        pair.speculative_distance = a.speculative_distance;
    })
}
