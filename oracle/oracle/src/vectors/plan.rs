//! A field that can be edited and stays sound.

use crate::{
    field::{Case, Field, NONE, Settings},
    file::Limits,
    rng::Rng,
};

/// The most layers of a cell.
const MOST_LAYERS: usize = 63;

/// A span that is joined to others by their keys, so that layers can come and go.
#[derive(Debug, Clone)]
struct Node {
    key: u32,
    area: u8,
    joins: [Option<u32>; 4],
}

#[derive(Debug, Clone, Copy, PartialEq, Eq)]
enum Mirror {
    LeftRight,
    LowHigh,
    Diagonal,
}

/// The cells of a field, row by row.
#[derive(Debug, Clone)]
pub struct Plan {
    grid: Field,
    cells: Vec<Vec<Node>>,
    settings: Settings,
    next_key: u32,
}

impl Plan {
    /// The plan of a case that is not refused.
    pub fn new(case: &Case) -> Self {
        let Case { field, settings } = case;
        let grid = Field {
            w: field.w,
            h: field.h,
            ..Field::default()
        };
        let node = |cell, span| Node {
            key: span as u32,
            area: field.area[span],
            joins: std::array::from_fn(|d| {
                let (_, other) = field.neighbour(cell, span, d)?;
                Some(other as u32)
            }),
        };
        let cells = (0..field.cells())
            .map(|cell| field.spans_in(cell).map(|span| node(cell, span)).collect())
            .collect();
        Self {
            grid,
            cells,
            settings: *settings,
            next_key: field.spans() as u32,
        }
    }

    /// The case of the plan.
    pub fn case(&self) -> Case {
        let mut field = self.grid.clone();
        for (cell, nodes) in self.cells.iter().enumerate() {
            field.index.push(field.area.len() as u32);
            field.count.push(nodes.len() as u8);
            for node in nodes {
                field.area.push(node.area);
                for d in 0..4 {
                    let layer = node.joins[d].and_then(|key| {
                        let beside = self.grid.cell_beside(cell, d)?;
                        self.layer(beside, key)
                    });
                    field.con.push(layer.map_or(NONE, |layer| layer as u8));
                }
            }
        }
        Case {
            field,
            settings: self.settings,
        }
    }

    /// Whether a file of the plan is one that the program reads.
    pub fn fits(&self) -> bool {
        let spans: usize = self.cells.iter().map(Vec::len).sum();
        let layers_fit = self.cells.iter().all(|nodes| nodes.len() <= MOST_LAYERS);
        self.grid.w <= 256
            && self.grid.h <= 256
            && self.cells.len() <= Limits::PROGRAM.cells
            && spans <= Limits::PROGRAM.spans
            && layers_fit
    }

    /// Makes one change of any sort.
    pub fn edit(&mut self, rng: &mut Rng) {
        match rng.within(0..=15) {
            0..=2 => self.edit_settings(rng),
            3..=4 => self.cut(rng),
            5..=6 => self.join_two(rng),
            7 => self.edit_area(rng),
            8 => self.put(rng),
            9 => self.remove(rng),
            10 => self.fill_block(rng),
            11 => self.clear_block(rng),
            12 => self.block_of_area(rng),
            13 => self.drop_line(rng),
            14 => self.add_line(rng),
            _ => self.mirror(rng),
        }
    }

    /// Takes something away.
    pub fn lessen(&mut self, rng: &mut Rng) {
        match rng.within(0..=3) {
            0 => self.remove(rng),
            1 => self.clear_block(rng),
            _ => self.drop_line(rng),
        }
    }

    fn layer(&self, cell: usize, key: u32) -> Option<usize> {
        self.cells[cell].iter().position(|node| node.key == key)
    }

    /// The cell and the layer of any span.
    fn any_span(&self, rng: &mut Rng) -> Option<(usize, usize)> {
        let spans: usize = self.cells.iter().map(Vec::len).sum();
        let mut number = rng.within(0..=spans.checked_sub(1)?);
        let cell = self.cells.iter().position(|nodes| {
            let is_here = number < nodes.len();
            if !is_here {
                number -= nodes.len();
            }
            is_here
        })?;
        Some((cell, number))
    }

    fn unjoin(&mut self, cell: usize, layer: usize, d: usize) {
        if let Some(key) = self.cells[cell][layer].joins[d].take()
            && let Some(beside) = self.grid.cell_beside(cell, d)
            && let Some(other) = self.layer(beside, key)
        {
            self.cells[beside][other].joins[(d + 2) % 4] = None;
        }
    }

    fn join(&mut self, cell: usize, layer: usize, d: usize, other: usize) {
        let Some(beside) = self.grid.cell_beside(cell, d) else {
            return;
        };
        self.unjoin(cell, layer, d);
        self.unjoin(beside, other, (d + 2) % 4);
        self.cells[cell][layer].joins[d] = Some(self.cells[beside][other].key);
        self.cells[beside][other].joins[(d + 2) % 4] = Some(self.cells[cell][layer].key);
    }

    /// Joins a span to the lowest free place of each cell beside it.
    fn join_free(&mut self, cell: usize, layer: usize) {
        for d in 0..4 {
            if let Some(beside) = self.grid.cell_beside(cell, d)
                && self.cells[cell][layer].joins[d].is_none()
                && let Some(other) = self.cells[beside]
                    .iter()
                    .position(|node| node.joins[(d + 2) % 4].is_none())
            {
                self.join(cell, layer, d, other);
            }
        }
    }

    fn put_at(&mut self, cell: usize, layer: usize, area: u8) {
        let node = Node {
            key: self.next_key,
            area,
            joins: [None; 4],
        };
        self.next_key += 1;
        self.cells[cell].insert(layer, node);
    }

    fn remove_at(&mut self, cell: usize, layer: usize) {
        for d in 0..4 {
            self.unjoin(cell, layer, d);
        }
        self.cells[cell].remove(layer);
    }

    fn edit_settings(&mut self, rng: &mut Rng) {
        let spans: usize = self.cells.iter().map(Vec::len).sum();
        let old = match rng.within(0..=2) {
            0 => {
                self.settings.border_size = rng.pick(&[0, 0, 1, 1, 2, 3, 300]);
                return;
            }
            1 => &mut self.settings.least_area,
            _ => &mut self.settings.merge_area,
        };
        *old = match rng.within(0..=4) {
            0 => 0,
            1 => rng.within(0..=10) as u16,
            2 => old.saturating_add(1),
            3 => old.saturating_sub(1),
            _ => rng.within(0..=spans) as u16,
        };
    }

    fn cut(&mut self, rng: &mut Rng) {
        if let Some((cell, layer)) = self.any_span(rng) {
            self.unjoin(cell, layer, rng.within(0..=3));
        }
    }

    fn join_two(&mut self, rng: &mut Rng) {
        let d = rng.within(0..=3);
        if let Some((cell, layer)) = self.any_span(rng)
            && let Some(beside) = self.grid.cell_beside(cell, d)
            && !self.cells[beside].is_empty()
        {
            let other = rng.within(0..=self.cells[beside].len() - 1);
            self.join(cell, layer, d, other);
        }
    }

    fn edit_area(&mut self, rng: &mut Rng) {
        if let Some((cell, layer)) = self.any_span(rng) {
            self.cells[cell][layer].area = rng.pick(&[0, 1, 1, 2]);
        }
    }

    fn put(&mut self, rng: &mut Rng) {
        if self.cells.is_empty() {
            return;
        }
        let cell = rng.within(0..=self.cells.len() - 1);
        let layer = rng.within(0..=self.cells[cell].len());
        self.put_at(cell, layer, 1);
        if rng.chance(80) {
            self.join_free(cell, layer);
        }
    }

    fn remove(&mut self, rng: &mut Rng) {
        if let Some((cell, layer)) = self.any_span(rng) {
            self.remove_at(cell, layer);
        }
    }

    /// The cells of a block of up to 9 by 9.
    fn any_block(&self, rng: &mut Rng) -> Vec<usize> {
        let (w, h) = (usize::from(self.grid.w), usize::from(self.grid.h));
        if self.cells.is_empty() {
            return Vec::new();
        }
        let (x, z) = (rng.within(0..=w - 1), rng.within(0..=h - 1));
        let most = rng.pick(&[1, 3, 5, 9]);
        let (right, low) = (
            (x + rng.within(1..=most)).min(w),
            (z + rng.within(1..=most)).min(h),
        );
        (z..low)
            .flat_map(|z| (x..right).map(move |x| x + z * w))
            .collect()
    }

    fn fill_block(&mut self, rng: &mut Rng) {
        for cell in self.any_block(rng) {
            if self.cells[cell].is_empty() {
                self.put_at(cell, 0, 1);
            }
            self.join_free(cell, 0);
        }
    }

    fn clear_block(&mut self, rng: &mut Rng) {
        for cell in self.any_block(rng) {
            while !self.cells[cell].is_empty() {
                self.remove_at(cell, 0);
            }
        }
    }

    fn block_of_area(&mut self, rng: &mut Rng) {
        let area = rng.pick(&[0, 1, 1, 2]);
        for cell in self.any_block(rng) {
            for node in &mut self.cells[cell] {
                node.area = area;
            }
        }
    }

    /// Takes a row or a column at an end away.
    fn drop_line(&mut self, rng: &mut Rng) {
        let (w, h) = (usize::from(self.grid.w), usize::from(self.grid.h));
        let low_end = rng.chance(50);
        if rng.chance(50) && w > 0 {
            let x = if low_end { 0 } else { w - 1 };
            for z in (0..h).rev() {
                self.clear(x + z * w);
                self.cells.remove(x + z * w);
            }
            self.grid.w -= 1;
        } else if h > 0 && w > 0 {
            let z = if low_end { 0 } else { h - 1 };
            for x in (0..w).rev() {
                self.clear(x + z * w);
                self.cells.remove(x + z * w);
            }
            self.grid.h -= 1;
        }
    }

    /// Takes all spans from a cell, whose neighbours are not looked for in the grid but by their keys.
    fn clear(&mut self, cell: usize) {
        let keys: Vec<_> = self.cells[cell].drain(..).map(|node| node.key).collect();
        for node in self.cells.iter_mut().flatten() {
            for join in &mut node.joins {
                if join.is_some_and(|key| keys.contains(&key)) {
                    *join = None;
                }
            }
        }
    }

    /// Adds an empty row or column at an end.
    fn add_line(&mut self, rng: &mut Rng) {
        let (w, h) = (usize::from(self.grid.w), usize::from(self.grid.h));
        let low_end = rng.chance(50);
        if rng.chance(50) {
            let x = if low_end { 0 } else { w };
            for z in (0..h).rev() {
                self.cells.insert(x + z * w, Vec::new());
            }
            self.grid.w += 1;
        } else {
            let z = if low_end { 0 } else { h };
            for _ in 0..w {
                self.cells.insert(z * w, Vec::new());
            }
            self.grid.h += 1;
        }
    }

    /// Mirrors the field at an axis, or at the diagonal.
    fn mirror(&mut self, rng: &mut Rng) {
        let (w, h) = (self.grid.w, self.grid.h);
        let mirror = rng.pick(&[Mirror::LeftRight, Mirror::LowHigh, Mirror::Diagonal]);
        if mirror == Mirror::Diagonal {
            (self.grid.w, self.grid.h) = (h, w);
        }
        let mut cells = vec![Vec::new(); self.cells.len()];
        for (cell, mut nodes) in self.cells.drain(..).enumerate() {
            let (x, z) = (cell as u16 % w, cell as u16 / w);
            let (to, directions) = match mirror {
                Mirror::LeftRight => ((w - 1 - x, z), [2, 1, 0, 3]),
                Mirror::LowHigh => ((x, h - 1 - z), [0, 3, 2, 1]),
                Mirror::Diagonal => ((z, x), [3, 2, 1, 0]),
            };
            for node in &mut nodes {
                node.joins = directions.map(|d: usize| node.joins[d]);
            }
            cells[self.grid.cell_at(to.0, to.1)] = nodes;
        }
        self.cells = cells;
    }
}
