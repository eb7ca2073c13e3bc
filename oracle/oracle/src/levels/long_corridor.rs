//! A corridor so long that its contour is not walked to the end.

use super::draft::Draft;
use crate::field::Field;

/// A corridor one cell wide, folded into rows of so many cells with walls between them. Past its end lies one span of
/// another area, which the corridor lists if the walk along its contour gets there. In the last rows, apart from it,
/// lies an open 3 by 3 field, so that max_distance is above 0.
pub fn long_corridor(w: usize, length: usize) -> Field {
    let rows = (length + 1).div_ceil(w);
    let path: Vec<_> = (0..=length)
        .map(|step| {
            let (z, along) = (step / w, step % w);
            let x = if z % 2 == 0 { along } else { w - 1 - along };
            (x as u16, z as u16)
        })
        .collect();
    let grid = (w as u16, rows as u16 + 4);
    let mut draft = Draft::new(grid, length + 10);
    // Each span lies one higher than the one before it, and only such spans are joined.
    for (step, &place) in path.iter().enumerate() {
        let area = if step == length { 2 } else { 1 };
        draft.put(place, step as i32, area);
    }
    for z in grid.1 - 3..grid.1 {
        for x in 0..3 {
            draft.put((x, z), -10, 1);
        }
    }
    draft.join_within(1);
    draft.finish()
}
