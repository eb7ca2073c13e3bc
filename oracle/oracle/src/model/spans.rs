//! The spans of a field, each with its place and its neighbours.

use super::{Mistake, Model};
use crate::field::{Field, NONE};
use std::ops::Range;

/// The directions: 0 is (-1,0), 1 is (0,1), 2 is (1,0), 3 is (0,-1).
pub const OFFSETS: [(i32, i32); 4] = [(-1, 0), (0, 1), (1, 0), (0, -1)];

/// A span of the field.
pub struct Span {
    pub x: usize,
    pub z: usize,
    pub area: u8,
    /// The span that each connection leads to.
    neighbours: [Option<usize>; 4],
}

/// The spans in scan order, which is the order of their numbers.
pub struct Spans {
    pub w: usize,
    pub h: usize,
    list: Vec<Span>,
    /// The spans of each cell, row by row.
    cells: Vec<Range<usize>>,
}

impl Spans {
    pub fn new(model: Model, field: &Field) -> Self {
        let (w, h) = (usize::from(field.w), usize::from(field.h));
        let mut cells: Vec<Range<usize>> = Vec::with_capacity(w * h);
        for &count in &field.count {
            let first = cells.last().map_or(0, |before| before.end);
            cells.push(first..first + usize::from(count));
        }
        let mut list = Vec::with_capacity(field.area.len());
        for z in 0..h {
            for x in 0..w {
                for span in cells[x + z * w].clone() {
                    let neighbours = std::array::from_fn(|d| {
                        let layer = field.con[4 * span + d];
                        let beside = cell_beside(model, (w, h), (x, z), d)?;
                        let neighbour = cells[beside].start + usize::from(layer);
                        (layer != NONE && neighbour < field.area.len()).then_some(neighbour)
                    });
                    let area = field.area[span];
                    list.push(Span {
                        x,
                        z,
                        area,
                        neighbours,
                    });
                }
            }
        }
        Self { w, h, list, cells }
    }

    /// How many there are: document 01's n.
    pub fn number(&self) -> usize {
        self.list.len()
    }

    pub fn get(&self, span: usize) -> &Span {
        &self.list[span]
    }

    pub fn area(&self, span: usize) -> u8 {
        self.list[span].area
    }

    pub fn is_walkable(&self, span: usize) -> bool {
        self.area(span) != 0
    }

    /// The spans of the cell at a place, from the lowest layer up.
    pub fn layers(&self, x: usize, z: usize) -> Range<usize> {
        self.cells[x + z * self.w].clone()
    }

    /// The span that a connection leads to. Direction 4 is 0 again.
    pub fn neighbour(&self, span: usize, d: usize) -> Option<usize> {
        self.list[span].neighbours[d % 4]
    }

    /// The neighbour, if it has the same area.
    pub fn same_area_neighbour(&self, span: usize, d: usize) -> Option<usize> {
        self.neighbour(span, d)
            .filter(|&neighbour| self.area(neighbour) == self.area(span))
    }

    /// All spans column by column.
    pub fn column_by_column(&self) -> Vec<usize> {
        let places = (0..self.w).flat_map(|x| (0..self.h).map(move |z| (x, z)));
        places.flat_map(|(x, z)| self.layers(x, z)).collect()
    }
}

/// The cell that a direction leads to, unless it leaves the grid.
pub fn cell_beside(
    model: Model,
    (w, h): (usize, usize),
    (x, z): (usize, usize),
    d: usize,
) -> Option<usize> {
    let (x, z) = (x as i32 + OFFSETS[d].0, z as i32 + OFFSETS[d].1);
    if model.has(Mistake::SidesWrap) {
        let cell = x + z * w as i32;
        let inside = (0..(w * h) as i32).contains(&cell);
        return inside.then_some(cell as usize);
    }
    let inside = (0..w as i32).contains(&x) && (0..h as i32).contains(&z);
    inside.then(|| x as usize + z as usize * w)
}
