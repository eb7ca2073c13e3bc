//! Opening a door, request A5, written from document 02's words alone.

use crate::{
    field::{DIRECTIONS, Field},
    refusals::{self, Refusal},
};

/// Columns x0 to x1 of rows z0 to z1, both ends included.
#[derive(Debug, Clone, Copy, PartialEq, Eq)]
pub struct Rect {
    /// The first column.
    pub x0: u16,
    /// The first row.
    pub z0: u16,
    /// The last column.
    pub x1: u16,
    /// The last row.
    pub z1: u16,
}

/// The stored lists.
#[derive(Debug, Clone, PartialEq, Eq)]
pub struct Stages {
    /// The values of pass 1.
    pub pass1: Vec<u16>,
    /// The raw distances.
    pub raw: Vec<u16>,
    /// The blurred distances.
    pub blurred: Vec<u16>,
}

/// What a refresh reports: the greatest raw value, and the first and last row redone in pass 1, pass 2 and the blur.
#[derive(Debug, Clone, Copy, PartialEq, Eq)]
pub struct Report {
    /// The greatest raw value.
    pub max_distance: u16,
    /// The first and last row of pass 1, of pass 2 and of the blur.
    pub rows: [u16; 6],
}

const STORED_LIMIT: u16 = 510;

/// "A build that writes all three": the passes and the blur, row by row.
pub fn build(field: &Field, lens: [usize; 3]) -> Result<(Stages, u16), Refusal> {
    refusals::field_with_lists(field, &lens)?;
    let n = field.area.len();
    let mut stages = Stages {
        pass1: vec![0; n],
        raw: vec![0; n],
        blurred: vec![0; n],
    };
    for z in 0..field.h {
        pass1_row(field, z, &mut stages.pass1);
    }
    stages.raw.clone_from(&stages.pass1);
    for z in (0..field.h).rev() {
        pass2_row(field, z, &mut stages.raw);
    }
    for z in 0..field.h {
        blur_row(field, z, &stages.raw, &mut stages.blurred);
    }
    let greatest = stages.raw.iter().copied().max().unwrap_or(0);
    Ok((stages, greatest))
}

/// The refresh: the changed field, the rectangle, the stored lists.
pub fn refresh(field: &Field, rect: Rect, stored: &Stages) -> Result<(Stages, Report), Refusal> {
    let lens = [stored.pass1.len(), stored.raw.len(), stored.blurred.len()];
    refusals::field_with_lists(field, &lens)?;
    if rect.x1 < rect.x0 || rect.z1 < rect.z0 || rect.x1 >= field.w || rect.z1 >= field.h {
        return Err(Refusal::WrongRect);
    }
    if stored
        .pass1
        .iter()
        .chain(&stored.raw)
        .any(|v| *v > STORED_LIMIT)
    {
        return Err(Refusal::WrongStored);
    }
    let mut now = stored.clone();
    let end = field.h - 1;
    // "Redo pass 1 from row z0−1 on and stop after the first row, z1+1 or later, that comes out as stored."
    let first = rect.z0.saturating_sub(1);
    let mut last = end;
    for z in first..=end {
        pass1_row(field, z, &mut now.pass1);
        if z > rect.z1 && same_row(field, z, &now.pass1, &stored.pass1) {
            last = z;
            break;
        }
    }
    // "Redo pass 2 from that last row backward and stop after the first row, z0−1 or before, that comes out as stored."
    let mut top = 0;
    for z in (0..=last).rev() {
        for (_, s) in spans_of(field, z) {
            now.raw[s] = now.pass1[s];
        }
        pass2_row(field, z, &mut now.raw);
        if z < rect.z0 && same_row(field, z, &now.raw, &stored.raw) {
            top = z;
            break;
        }
    }
    // "Redo the blur over pass 2's rows and one more at each end"
    let (low, high) = (top.saturating_sub(1), (last + 1).min(end));
    for z in low..=high {
        blur_row(field, z, &now.raw, &mut now.blurred);
    }
    let report = Report {
        max_distance: now.raw.iter().copied().max().unwrap_or(0),
        rows: [first, last, top, last, low, high],
    };
    Ok((now, report))
}

/// The spans of row z with their cells, cell by cell.
fn spans_of(field: &Field, z: u16) -> Vec<(usize, usize)> {
    let w = usize::from(field.w);
    let cells = usize::from(z) * w..(usize::from(z) + 1) * w;
    let in_cell = |cell| field.spans_in(cell).map(move |span| (cell, span));
    cells.flat_map(in_cell).collect()
}

fn same_row(field: &Field, z: u16, one: &[u16], other: &[u16]) -> bool {
    let spans = spans_of(field, z);
    spans.into_iter().all(|(_, s)| one[s] == other[s])
}

/// The neighbour of a span, and that neighbour's neighbour.
fn two_steps(
    field: &Field,
    (cell, span): (usize, usize),
    d: usize,
    e: usize,
) -> (Option<usize>, Option<usize>) {
    let near = field.neighbour(cell, span, d);
    let corner = near.and_then(|(cell, span)| field.neighbour(cell, span, e));
    (near.map(|at| at.1), corner.map(|at| at.1))
}

fn least(
    field: &Field,
    at: (usize, usize),
    ways: [(usize, usize); 2],
    values: &[u16],
    own: u16,
) -> u16 {
    let mut best = u32::from(own);
    for (d, e) in ways {
        let (near, corner) = two_steps(field, at, d, e);
        if let Some(t) = near {
            best = best.min(u32::from(values[t]) + 2);
        }
        if let Some(t) = corner {
            best = best.min(u32::from(values[t]) + 3);
        }
    }
    best as u16
}

fn pass1_row(field: &Field, z: u16, values: &mut [u16]) {
    for (cell, s) in spans_of(field, z) {
        let alike = DIRECTIONS.into_iter().filter(|&d| {
            let near = field.neighbour(cell, s, d);
            near.is_some_and(|(_, t)| field.area[t] == field.area[s])
        });
        let start = if alike.count() < 4 { 0 } else { u16::MAX };
        values[s] = least(field, (cell, s), [(0, 3), (3, 2)], values, start);
    }
}

/// "downward in rows and columns, layers still upward"
fn pass2_row(field: &Field, z: u16, values: &mut [u16]) {
    let w = usize::from(field.w);
    for x in (0..w).rev() {
        let cell = usize::from(z) * w + x;
        for s in field.spans_in(cell) {
            values[s] = least(field, (cell, s), [(2, 1), (1, 0)], values, values[s]);
        }
    }
}

fn blur_row(field: &Field, z: u16, raw: &[u16], blurred: &mut [u16]) {
    for at in spans_of(field, z) {
        let own = u32::from(raw[at.1]);
        let mut sum = own + 5;
        for d in DIRECTIONS {
            let (near, corner) = two_steps(field, at, d, (d + 1) % 4);
            sum += near.map_or(own, |t| u32::from(raw[t]));
            sum += corner.map_or(own, |t| u32::from(raw[t]));
        }
        blurred[at.1] = if own <= 2 {
            raw[at.1]
        } else {
            (sum / 9) as u16
        };
    }
}

#[cfg(test)]
mod tests {
    use super::*;
    use crate::{
        levels::{KINDS, Size},
        model::Model,
        rng::Rng,
    };

    /// Several edits after each other, each followed by a refresh, come to a build; and a build is the model's of document 01.
    #[test]
    fn a_refresh_comes_to_a_build() {
        for seed in 0..400 {
            let mut rng = Rng::new(seed);
            let mut field = rng.pick(&KINDS).make(Size::Small, seed).field;
            let n = field.spans();
            let (mut stages, greatest) = build(&field, [n; 3]).expect("a sound field");
            let right = Model::RIGHT.distances(&field);
            assert_eq!((&stages.raw, &stages.blurred), (&right.raw, &right.blurred));
            assert_eq!(greatest, right.max_distance);
            for _ in 0..6 {
                if field.w == 0 || field.h == 0 {
                    break;
                }
                let (x0, z0) = (
                    rng.within(0..=usize::from(field.w) - 1) as u16,
                    rng.within(0..=usize::from(field.h) - 1) as u16,
                );
                let rect = Rect {
                    x0,
                    z0,
                    x1: x0,
                    z1: z0,
                };
                for span in field.spans_in(field.cell_at(x0, z0)) {
                    field.area[span] = rng.pick(&[0, 1, 2]);
                }
                let (now, report) = refresh(&field, rect, &stages).expect("not refused");
                let (built, greatest) = build(&field, [n; 3]).expect("a sound field");
                assert_eq!(now, built, "seed {seed}");
                assert_eq!(report.max_distance, greatest);
                stages = now;
            }
        }
    }
}
