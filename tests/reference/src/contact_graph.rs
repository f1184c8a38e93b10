//! From src/collision/contact_types/contact_graph.rs. The entities' nodes are left out with the graph that they stand in.

use super::{ContactEdge, ContactId, ContactPair, Entity, PairKey};
use crate::branches::reach;
use std::collections::HashSet;

/// Stands in for the `StableUnGraph`. A new id is the one freed last, else the lowest never given.
#[derive(Clone, Debug, Default)]
pub struct Edges {
    raw_edges: Vec<Option<ContactEdge>>,
    free: Vec<ContactId>,
}

impl Edges {
    pub fn from_parts(raw_edges: Vec<Option<ContactEdge>>, free: Vec<ContactId>) -> Self {
        Self { raw_edges, free }
    }

    #[inline]
    pub fn raw_edges(&self) -> &[Option<ContactEdge>] {
        &self.raw_edges
    }

    /// The free ids, in the order freed.
    pub fn free(&self) -> &[ContactId] {
        &self.free
    }

    pub fn add_edge(&mut self, edge: ContactEdge) -> ContactId {
        reach!(match (self.free.len()) {
            0 => "added: an id never given",
            1 => "added: the one id freed",
            _ => "added: the id freed last of several",
        });
        match self.free.pop() {
            Some(id) => {
                self.raw_edges[id.0 as usize] = Some(edge);
                id
            }
            None => {
                self.raw_edges.push(Some(edge));
                ContactId(self.raw_edges.len() as u32 - 1)
            }
        }
    }

    pub fn remove_edge(&mut self, id: ContactId) -> Option<ContactEdge> {
        let edge = self.raw_edges.get_mut(id.0 as usize)?.take()?;
        self.free.push(id);
        Some(edge)
    }

    #[inline]
    pub fn edge_weight(&self, id: ContactId) -> Option<&ContactEdge> {
        self.raw_edges.get(id.0 as usize)?.as_ref()
    }

    #[inline]
    pub fn edge_weight_mut(&mut self, id: ContactId) -> Option<&mut ContactEdge> {
        self.raw_edges.get_mut(id.0 as usize)?.as_mut()
    }
}

/// A resource that stores all [`ContactEdge`]s in the physics world in an undirected graph,
/// and their corresponding [`ContactPair`]s.
#[derive(Clone, Debug, Default)]
pub struct ContactGraph {
    pub edges: Edges,

    /// Contact pairs for awake dynamic and kinematic bodies.
    pub active_pairs: Vec<ContactPair>,

    /// A set of all contact pairs for fast lookup.
    pub pair_set: HashSet<PairKey>,
}

impl ContactGraph {
    /// Returns the [`ContactEdge`] between two entities based on their IDs.
    /// If the edge does not exist, `None` is returned.
    #[inline]
    pub fn get_edge_by_id(&self, id: ContactId) -> Option<&ContactEdge> {
        self.edges.edge_weight(id)
    }

    /// Returns a mutable reference to the [`ContactEdge`] between two entities based on their IDs.
    /// If the edge does not exist, `None` is returned.
    #[inline]
    pub fn get_edge_mut_by_id(&mut self, id: ContactId) -> Option<&mut ContactEdge> {
        self.edges.edge_weight_mut(id)
    }

    /// Returns a mutable reference to the [`ContactEdge`] and [`ContactPair`] between two entities based on the contact ID.
    /// If the pair does not exist, `None` is returned.
    #[inline]
    pub fn get_mut_by_id(&mut self, id: ContactId) -> Option<(&mut ContactEdge, &mut ContactPair)> {
        self.edges.edge_weight_mut(id).and_then(|edge| {
            self.active_pairs
                .get_mut(edge.pair_index)
                .map(|pair| (edge, pair))
        })
    }

    /// Returns `true` if the given entities have a contact pair.
    #[inline]
    pub fn contains(&self, entity1: Entity, entity2: Entity) -> bool {
        self.pair_set
            .contains(&PairKey::new(entity1.index_u32(), entity2.index_u32()))
    }

    /// Returns a mutable slice over all active (non-sleeping) contact pairs.
    #[inline]
    pub fn active_pairs_mut(&mut self) -> &mut [ContactPair] {
        &mut self.active_pairs
    }

    /// Creates a [`ContactEdge`] between two entities, calling the provided callback
    /// to initialize the associated [`ContactPair`] in the list of active pairs.
    ///
    /// Returns the ID of the contact edge if it was created, or `None` if the edge already exists.
    #[inline]
    pub fn add_edge_with<F>(
        &mut self,
        contact_edge: ContactEdge,
        pair_callback: F,
    ) -> Option<ContactId>
    where
        F: FnMut(&mut ContactPair),
    {
        let pair_key = PairKey::new(
            contact_edge.collider1.index_u32(),
            contact_edge.collider2.index_u32(),
        );
        self.add_edge_and_key_with(contact_edge, pair_key, pair_callback)
    }

    /// Creates a [`ContactEdge`] between two entities with the given pair key, calling the provided callback
    /// to initialize the associated [`ContactPair`] in the list of active pairs.
    #[inline]
    pub fn add_edge_and_key_with<F>(
        &mut self,
        contact_edge: ContactEdge,
        pair_key: PairKey,
        mut pair_callback: F,
    ) -> Option<ContactId>
    where
        F: FnMut(&mut ContactPair),
    {
        // Add the pair to the pair set for fast lookup.
        if !self.pair_set.insert(pair_key) {
            // The pair already exists.
            return None;
        }

        let collider1 = contact_edge.collider1;
        let collider2 = contact_edge.collider2;

        // Add the edge to the graph.
        let edge_id = self.edges.add_edge(contact_edge);

        // Create the contact pair. Contacts are created as active.
        let mut pair = ContactPair::new(collider1, collider2, edge_id);

        // Call the pair callback to allow for custom initialization.
        pair_callback(&mut pair);

        let pair_index = self.active_pairs.len();
        self.active_pairs.push(pair);

        // Set the contact ID and pair index of the edge.
        let edge = self.edges.edge_weight_mut(edge_id).unwrap();
        edge.id = edge_id;
        edge.pair_index = pair_index;

        Some(edge_id)
    }

    /// Removes a [`ContactEdge`] based on its pair key and ID and returns its value.
    #[inline]
    pub fn remove_edge_by_id(&mut self, pair_key: &PairKey, id: ContactId) -> Option<ContactEdge> {
        // Remove the pair from the pair set.
        self.pair_set.remove(pair_key);

        // Remove the edge from the graph.
        let edge = self.edges.remove_edge(id)?;

        // Remove the contact pair from the active or sleeping pairs.
        let pair_index = edge.pair_index;
        let contact_pairs = &mut self.active_pairs;

        let moved_index = contact_pairs.len() - 1;
        contact_pairs.swap_remove(pair_index);

        if moved_index != pair_index {
            // Fix moved pair index.
            reach!("removed: the last pair takes the gap");
            let moved_contact_id = contact_pairs[pair_index].contact_id;
            let moved_edge = self
                .get_edge_mut_by_id(moved_contact_id)
                .unwrap_or_else(|| {
                    panic!("error when removing contact pair {id:?} with pair index {pair_index:?}: moved edge {moved_contact_id:?} not found in contact graph")
                });
            assert!(moved_edge.pair_index == moved_index);
            moved_edge.pair_index = pair_index;
        } else {
            reach!("removed: the last pair itself");
        }

        Some(edge)
    }
}
