//! The heightfield, with the parts of it that the watershed reads or writes.

use crate::{AreaType, RegionId};

/// A column of spans.
#[derive(Debug, Clone)]
pub struct CompactCell {
    index: u32,
    count: u8,
}

impl CompactCell {
    /// A cell of `count` spans, the first of them numbered `index`.
    pub fn new(index: u32, count: u8) -> Self {
        Self { index, count }
    }

    /// The number of the first span.
    pub fn index(&self) -> u32 {
        self.index
    }

    /// How many spans the cell has.
    pub fn count(&self) -> u8 {
        self.count
    }
}

/// A span: its connections and, once built, its region.
#[derive(Debug, Clone)]
pub struct CompactSpan {
    connections: [u8; 4],
    /// The region of the span.
    pub region: RegionId,
}

impl CompactSpan {
    /// The connection byte of a side that leads nowhere.
    pub const NOT_CONNECTED: u8 = 255;

    /// A span in no region, with a connection byte for each direction.
    pub fn new(connections: [u8; 4]) -> Self {
        Self {
            connections,
            region: RegionId::NONE,
        }
    }

    /// The layer of the neighbouring cell that a direction leads to.
    pub fn con(&self, dir: u8) -> Option<u8> {
        let layer = self.connections[dir as usize];
        (layer != Self::NOT_CONNECTED).then_some(layer)
    }
}

/// A field of spans, row by row.
#[derive(Debug, Clone)]
pub struct CompactHeightfield {
    /// How many cells a row has.
    pub width: u16,
    /// How many rows there are.
    pub height: u16,
    /// The border size of the last [`CompactHeightfield::build_regions`].
    pub border_size: u16,
    /// The greatest distance before the blur.
    pub max_distance: u16,
    /// The last region number given.
    pub max_region: RegionId,
    /// The cells, x fastest.
    pub cells: Vec<CompactCell>,
    /// The spans, cell by cell.
    pub spans: Vec<CompactSpan>,
    /// The blurred distance of each span.
    pub dist: Vec<u16>,
    /// The area of each span.
    pub areas: Vec<AreaType>,
}

impl CompactHeightfield {
    /// The cell at a place of the grid.
    pub fn cell_at(&self, x: u16, z: u16) -> &CompactCell {
        &self.cells[x as usize + z as usize * self.width as usize]
    }
}
