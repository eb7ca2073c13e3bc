//! Floor sizes in metres, request A1, written from document 02's words alone.

use crate::{
    field::Field,
    refusals::{self, Refusal},
};

/// The record of one id.
#[derive(Debug, Clone, Copy, Default, PartialEq)]
pub struct Room {
    /// "floor size is count·k·k/4096", then "the least x, the greatest x plus 1, and the same for z", each "a cell number times k/64".
    pub sizes: [f64; 5],
    /// "the area code is that of the id's first span".
    pub area: u16,
    /// The span count.
    pub count: u16,
}

const FLAG: u16 = 0x8000;

/// The record of an id, with cells of side k/64 metre.
pub fn measure(
    field: &Field,
    ids: &[u16],
    max_region: u16,
    k: u16,
    id: u16,
) -> Result<Room, Refusal> {
    refusals::field_with_lists(field, &[])?;
    // "9 for k 0 or above 256, 10 for the id list, both after 1 to 6, in that order"
    if k == 0 || k > 256 {
        return Err(Refusal::WrongScale);
    }
    if ids.len() != field.spans() || ids.iter().any(|&id| id < FLAG && id > max_region) {
        return Err(Refusal::WrongIds);
    }
    // "A flagged id, one without spans and one outside 1 to max_region show zeros throughout."
    if id == 0 || id > max_region || id >= FLAG {
        return Ok(Room::default());
    }
    let mut places = Vec::new();
    for cell in 0..field.cells() {
        let w = usize::from(field.w);
        for span in field.spans_in(cell).filter(|&span| ids[span] == id) {
            places.push((span, cell % w, cell / w));
        }
    }
    let Some(&(first, _, _)) = places.first() else {
        return Ok(Room::default());
    };
    let xs = places.iter().map(|&(_, x, _)| x);
    let zs = places.iter().map(|&(_, _, z)| z);
    let edge = |cell: usize| (cell * usize::from(k)) as f64 / 64.0;
    let square = places.len() * usize::from(k) * usize::from(k);
    Ok(Room {
        sizes: [
            square as f64 / 4096.0,
            edge(xs.clone().min().unwrap_or(0)),
            edge(xs.max().unwrap_or(0) + 1),
            edge(zs.clone().min().unwrap_or(0)),
            edge(zs.max().unwrap_or(0) + 1),
        ],
        area: u16::from(field.area[first]),
        count: places.len() as u16,
    })
}
