//! A field in the making: spans are put into cells, then joined both ways at once.

use crate::{
    field::{Field, NONE},
    rng::Rng,
};

/// The most layers of a cell.
const MOST_LAYERS: usize = 63;

/// Each edge between two cells is looked at once, from the cell before it.
const FORWARD: [usize; 2] = [1, 2];

#[derive(Debug, Clone, Copy)]
struct Span {
    height: i32,
    area: u8,
    con: [u8; 4],
}

/// A place that a span may be joined to.
#[derive(Debug, Clone, Copy)]
struct Free {
    layer: usize,
    height: i32,
}

/// Columns of spans with room for a number of them.
pub struct Draft {
    grid: Field,
    columns: Vec<Vec<Span>>,
    room: usize,
}

impl Draft {
    /// Empty cells.
    pub fn new((w, h): (u16, u16), room: usize) -> Self {
        let grid = Field {
            w,
            h,
            ..Field::default()
        };
        let columns = vec![Vec::new(); grid.cells()];
        Self {
            grid,
            columns,
            room,
        }
    }

    /// The places of the grid, row by row.
    pub fn places(&self) -> impl Iterator<Item = (u16, u16)> + use<> {
        let w = self.grid.w;
        (0..self.grid.h).flat_map(move |z| (0..w).map(move |x| (x, z)))
    }

    /// Puts a span on top of a cell, unless the cell or the draft is full.
    pub fn put(&mut self, (x, z): (u16, u16), height: i32, area: u8) {
        let column = &mut self.columns[self.grid.cell_at(x, z)];
        if self.room > 0 && column.len() < MOST_LAYERS {
            self.room -= 1;
            column.push(Span {
                height,
                area,
                con: [NONE; 4],
            });
        }
    }

    /// Joins neighbours whose heights differ by `climb` at most, the lowest layer first.
    pub fn join_within(&mut self, climb: i32) {
        self.join(|height, free| {
            let in_reach = free
                .iter()
                .find(|other| (other.height - height).abs() <= climb)?;
            Some(in_reach.layer)
        });
    }

    /// Joins a span to any layer of the cell beside it, in so many of a hundred cases.
    pub fn join_at_random(&mut self, rng: &mut Rng, percent: usize) {
        self.join(|_, free| {
            (!free.is_empty() && rng.chance(percent)).then(|| rng.pick(free).layer)
        });
    }

    /// Joins each span, by its height, to a place of the cell beside it that is still free.
    fn join(&mut self, mut choose: impl FnMut(i32, &[Free]) -> Option<usize>) {
        for cell in 0..self.columns.len() {
            for d in FORWARD {
                let Some(beside) = self.grid.cell_beside(cell, d) else {
                    continue;
                };
                for layer in 0..self.columns[cell].len() {
                    let free = self.free_places(beside, (d + 2) % 4);
                    if let Some(other) = choose(self.columns[cell][layer].height, &free) {
                        self.columns[cell][layer].con[d] = other as u8;
                        self.columns[beside][other].con[(d + 2) % 4] = layer as u8;
                    }
                }
            }
        }
    }

    fn free_places(&self, cell: usize, d: usize) -> Vec<Free> {
        let is_free = |(_, span): &(usize, &Span)| span.con[d] == NONE;
        let place = |(layer, span): (usize, &Span)| Free {
            layer,
            height: span.height,
        };
        self.columns[cell]
            .iter()
            .enumerate()
            .filter(is_free)
            .map(place)
            .collect()
    }

    /// The field of the draft.
    pub fn finish(self) -> Field {
        let mut field = self.grid;
        for column in self.columns {
            field.index.push(field.area.len() as u32);
            field.count.push(column.len() as u8);
            for span in column {
                field.area.push(span.area);
                field.con.extend(span.con);
            }
        }
        field
    }
}
