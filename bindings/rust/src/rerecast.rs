//! For those who come from `rerecast`: from the cells, spans and areas of its `CompactHeightfield` to its distances and regions. Needs the feature `alloc`.
//!
//! `rerecast` is not a dependency: what is read of a heightfield comes as iterators, so any version of its types serves, and so do others of that form.
//! The numbers are `rerecast`'s own (the compared form), border included.
//!
//! ```
//! use gussetraft::{rerecast::Watershed, Refusal, Sizes};
//!
//! // Of a heightfield: `cells.iter().map(|cell| (cell.index(), cell.count()))`, `spans.iter().map(|span| [0, 1, 2, 3].map(|dir| span.con(dir)))` and
//! // `areas.iter().map(|area| area.0)`. Here 3 by 3 cells with one span each, all joined.
//! let cells = (0..9).map(|index| (index, 1));
//! let spans = (0..9).map(|cell| [cell % 3 > 0, cell < 6, cell % 3 < 2, cell > 2].map(|joined| joined.then_some(0)));
//! let areas = [1; 9];
//!
//! let mut watershed = Watershed::new(); // keep it for the next heightfield
//! let sizes = Sizes { border_size: 0, min_region_area: 8, merge_region_area: 20 };
//! let built = watershed.build(3, 3, cells, spans, areas, &sizes)?;
//! assert_eq!((built.max_distance, built.distances[4]), (2, 2));
//! assert_eq!((built.max_region, built.regions), (2, &[1; 9][..]));
//! # Ok::<(), Refusal>(())
//! ```

use crate::{
    build_distance_field, build_regions_compared, workspace::Workspace, Field, Refusal, Sizes,
    NO_CONNECTION,
};
use alloc::vec::Vec;

/// The lists that a heightfield is taken into, and the workspace. Kept from call to call they are made once, for the largest so far; one serves one
/// thread at a time.
#[derive(Debug, Default)]
pub struct Watershed {
    index: Vec<u32>,
    count: Vec<u8>,
    area: Vec<u8>,
    con: Vec<u8>,
    raw: Vec<u16>,
    distances: Vec<u16>,
    regions: Vec<u16>,
    workspace: Workspace,
}

/// What `rerecast` writes into a heightfield.
#[derive(Debug, Clone, Copy, PartialEq, Eq)]
pub struct Built<'a> {
    /// For `dist`: the blurred distance of each span.
    pub distances: &'a [u16],
    /// For `max_distance`.
    pub max_distance: u16,
    /// For each span's `region`, by `RegionId::from`.
    pub regions: &'a [u16],
    /// For `max_region`, by `RegionId::from`: the last number given.
    pub max_region: u16,
    /// How many regions, before the merge, lie over themselves; `rerecast` reports it to `tracing`.
    pub overlaps: u16,
    /// How many regions have a contour that was cut short after 40,000 steps; `rerecast` does not tell it.
    pub cut: u16,
}

impl Watershed {
    /// Nothing is allocated yet.
    pub fn new() -> Self {
        Self::default()
    }

    /// `build_distance_field` and `build_regions` of `rerecast` in one: `cells` are the index and the count of each cell, row by row, `spans` the four
    /// connections of each span, `areas` the area of each.
    ///
    /// # Errors
    ///
    /// Refusals 1 to 6, 12 and 13; `rerecast` panics, overflows or goes on with wrong numbers there. 3 is given where there are not `width` times `height` cells, or
    /// not as many spans as areas. The caller's heightfield was only read.
    pub fn build(
        &mut self,
        width: u16,
        height: u16,
        cells: impl IntoIterator<Item = (u32, u8)>,
        spans: impl IntoIterator<Item = [Option<u8>; 4]>,
        areas: impl IntoIterator<Item = u8>,
        sizes: &Sizes,
    ) -> Result<Built<'_>, Refusal> {
        self.index.clear();
        self.count.clear();
        for (index, count) in cells {
            self.index.push(index);
            self.count.push(count);
        }
        self.area.clear();
        self.area.extend(areas);
        self.con.clear();
        for sides in spans {
            self.con.extend(sides.map(connection));
        }
        let n = self.area.len();
        let field = Field {
            w: width,
            h: height,
            index: &self.index,
            count: &self.count,
            area: &self.area,
            con: &self.con,
        };
        self.raw.resize(n, 0);
        self.distances.resize(n, 0);
        self.regions.resize(n, 0);
        let max_distance = build_distance_field(&field, &mut self.raw, &mut self.distances)?;
        let answer = build_regions_compared(
            &field,
            &self.distances,
            max_distance,
            sizes,
            self.workspace.lend(n),
            &mut self.regions,
        )?;
        Ok(Built {
            distances: &self.distances,
            max_distance,
            regions: &self.regions,
            max_region: answer.max_region,
            overlaps: answer.overlaps,
            cut: answer.cut,
        })
    }
}

/// The byte of a connection. Layer 255, which would read as none, becomes another that no cell has, and is refused as it must be.
fn connection(layer: Option<u8>) -> u8 {
    match layer {
        None => NO_CONNECTION,
        Some(layer) => layer.min(NO_CONNECTION - 1),
    }
}
