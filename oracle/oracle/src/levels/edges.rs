//! Fields at the edges of request A6, where ids or source distances run out.

use super::draft::Draft;
use crate::field::Field;

/// The width of the grid.
const WIDTH: usize = 256;

/// So many spans that lead nowhere: with a distance above 0 each is a flood of its own.
pub fn apart(spans: usize) -> Field {
    let rows = spans.div_ceil(WIDTH);
    let has_span = |cell: usize| u8::from(cell < spans);
    Field {
        w: WIDTH as u16,
        h: rows as u16,
        index: (0..WIDTH * rows)
            .map(|cell| cell.min(spans) as u32)
            .collect(),
        count: (0..WIDTH * rows).map(has_span).collect(),
        area: vec![1; spans],
        con: vec![255; 4 * spans],
    }
}

/// A path of spans, each joined to the one before and the one after it alone, folded into rows; and of each step its span.
pub fn path(length: usize) -> (Field, Vec<usize>) {
    let rows = length.div_ceil(WIDTH);
    let place = |step: usize| {
        let (z, along) = (step / WIDTH, step % WIDTH);
        let x = if z % 2 == 0 { along } else { WIDTH - 1 - along };
        (x, z)
    };
    let mut draft = Draft::new((WIDTH as u16, rows as u16), length);
    // Each span lies one higher than the one before it, and only such spans are joined.
    for step in 0..length {
        let (x, z) = place(step);
        draft.put((x as u16, z as u16), step as i32, 1);
    }
    draft.join_within(1);
    let field = draft.finish();
    let span = |step: usize| {
        let (x, z) = place(step);
        field.index[z * WIDTH + x] as usize
    };
    let spans = (0..length).map(span).collect();
    (field, spans)
}

/// Distances and their greatest, given by step of a path.
pub struct Steps {
    /// The number of steps.
    pub length: usize,
    /// The distance of each.
    pub distances: Vec<u16>,
    /// The greatest distance of the call.
    pub max_distance: u16,
}

/// A flood at the first step alone: expansion goes through all others at level 0, so the source distance of step k is 2·k.
pub fn from_one_end(length: usize) -> Steps {
    let mut distances = vec![0; length];
    distances[0] = 6;
    Steps {
        length,
        distances,
        max_distance: 6,
    }
}

/// A flood at each end. From the first, `lead` steps (a multiple of 8) are expanded at levels above 0, eight a turn, so that the two
/// expansions that meet at level 0 after `rounds` rounds each bring source distances that differ by 2·lead: the last span left
/// computes 2·(lead + rounds) + 2 and 2·rounds + 2.
pub fn from_both_ends(lead: usize, rounds: usize) -> Steps {
    const MOST: u16 = 510;
    let length = 1 + lead + rounds + 1 + rounds + 1;
    let mut distances = vec![0; length];
    distances[0] = MOST;
    distances[length - 1] = MOST;
    for step in 0..lead {
        distances[1 + step] = MOST - 6 - 2 * (step / 8) as u16;
    }
    Steps {
        length,
        distances,
        max_distance: MOST,
    }
}
