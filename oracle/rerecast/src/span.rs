//! The area of a span.

/// An area; 0 is not walkable.
#[derive(Debug, Clone, Copy, PartialEq, Eq)]
pub struct AreaType(pub u8);

impl AreaType {
    /// The area of spans that can't be walked on.
    pub const NOT_WALKABLE: Self = Self(0);

    /// Whether the area is any but [`Self::NOT_WALKABLE`].
    pub fn is_walkable(&self) -> bool {
        *self != Self::NOT_WALKABLE
    }
}
