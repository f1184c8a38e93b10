//! Numbers that are wrapped, so that one never serves as another.

/// The id of a contact: its place among the graph's records, below the capacity.
#[derive(Clone, Copy, Debug, PartialEq, Eq, PartialOrd, Ord, Hash)]
pub struct ContactId(pub u32);

impl ContactId {
    /// An id that no contact has.
    pub const PLACEHOLDER: Self = Self(u32::MAX);

    pub(crate) fn index(self) -> usize {
        self.0 as usize
    }
}

/// The number of a geometric feature: a vertex, an edge or a face, its kind in the two highest bits.
#[derive(Clone, Copy, Debug, Default, PartialEq, Eq, PartialOrd, Ord, Hash)]
pub struct PackedFeatureId(pub u32);

impl PackedFeatureId {
    /// A feature that is not known. [By number](crate::Matching::ByNumber) it is compared as any other; [by
    /// place](crate::Matching::ByPlace) a new point that has it matches by its anchors alone.
    pub const UNKNOWN: Self = Self(0);
}
