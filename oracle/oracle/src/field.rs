//! The field as document 01 lends it.

use std::ops::Range;

/// The connection byte of a side that leads nowhere.
pub const NONE: u8 = 255;

/// The four directions, in order.
pub const DIRECTIONS: [usize; 4] = [0, 1, 2, 3];

/// The steps in x and z of each direction.
const OFFSETS: [(i32, i32); 4] = [(-1, 0), (0, 1), (1, 0), (0, -1)];

/// The lists of a field. Nothing is assumed of them: [`crate::refusals`] tells whether they fit each other.
#[derive(Debug, Clone, Default, PartialEq, Eq)]
pub struct Field {
    /// How many cells a row has.
    pub w: u16,
    /// How many rows there are.
    pub h: u16,
    /// The number of the first span of each cell, row by row.
    pub index: Vec<u32>,
    /// How many spans each cell has.
    pub count: Vec<u8>,
    /// The area of each span; 0 is not walkable.
    pub area: Vec<u8>,
    /// Four bytes a span: the layer that each direction leads to, or [`NONE`].
    pub con: Vec<u8>,
}

/// The numbers that the region entry takes beside the field and its distances.
#[derive(Debug, Clone, Copy, Default, PartialEq, Eq)]
pub struct Settings {
    /// How many rows and columns are painted at each side.
    pub border_size: u16,
    /// Groups of regions of fewer spans are removed.
    pub least_area: u16,
    /// Regions of up to so many spans are merged even at a wall.
    pub merge_area: u16,
}

/// What a field file holds.
#[derive(Debug, Clone, Default, PartialEq, Eq)]
pub struct Case {
    /// The field.
    pub field: Field,
    /// The numbers to run it with.
    pub settings: Settings,
}

impl Field {
    /// One span a cell, area 1, all connected: what document 01 calls "open".
    pub fn open(w: u16, h: u16) -> Self {
        let cells = usize::from(w) * usize::from(h);
        let mut field = Self {
            w,
            h,
            index: (0..cells as u32).collect(),
            count: vec![1; cells],
            area: vec![1; cells],
            con: Vec::with_capacity(4 * cells),
        };
        for cell in 0..cells {
            let sides = DIRECTIONS.map(|d| field.cell_beside(cell, d).map_or(NONE, |_| 0));
            field.con.extend(sides);
        }
        field
    }

    /// How many cells the grid has.
    pub fn cells(&self) -> usize {
        usize::from(self.w) * usize::from(self.h)
    }

    /// How many spans there are: document 01's n.
    pub fn spans(&self) -> usize {
        self.area.len()
    }

    /// The cell at a place of the grid.
    pub fn cell_at(&self, x: u16, z: u16) -> usize {
        usize::from(x) + usize::from(z) * usize::from(self.w)
    }

    /// The cell that a direction leads to, unless it leaves the grid.
    pub fn cell_beside(&self, cell: usize, d: usize) -> Option<usize> {
        let (w, h) = (i32::from(self.w), i32::from(self.h));
        let (x, z) = (
            cell as i32 % w + OFFSETS[d].0,
            cell as i32 / w + OFFSETS[d].1,
        );
        ((0..w).contains(&x) && (0..h).contains(&z)).then_some((x + z * w) as usize)
    }

    /// The numbers of a cell's spans.
    pub fn spans_in(&self, cell: usize) -> Range<usize> {
        if self.count[cell] == 0 {
            return 0..0;
        }
        let first = self.index[cell] as usize;
        first..first + usize::from(self.count[cell])
    }

    /// The layer that a connection names.
    pub fn layer_beside(&self, span: usize, d: usize) -> Option<u8> {
        let layer = self.con[4 * span + d];
        (layer != NONE).then_some(layer)
    }

    /// The cell and the number of the span that a connection leads to. The field must be one that is not refused.
    pub fn neighbour(&self, cell: usize, span: usize, d: usize) -> Option<(usize, usize)> {
        let layer = self.layer_beside(span, d)?;
        let beside = self.cell_beside(cell, d)?;
        Some((beside, self.index[beside] as usize + usize::from(layer)))
    }
}
