//! Plain rooms, request A12, written from document 02's words alone.

use crate::{
    field::{DIRECTIONS, Field},
    refusals::{self, Refusal},
};

/// What the entry gives and writes.
#[derive(Debug, Clone, PartialEq, Eq)]
pub struct PlainRooms {
    /// The id of each span.
    pub ids: Vec<u16>,
    /// "the greatest id, 0 for none".
    pub max_region: u16,
}

/// "with more than 32,767 rooms, 12".
const MOST_ROOMS: usize = 32_767;

/// The bit of a painted id.
const FLAG: u16 = 0x8000;

/// Plain rooms of a field, with lists of these lengths.
pub fn build(
    field: &Field,
    border_size: u16,
    ids_len: usize,
    workspace_len: usize,
) -> Result<PlainRooms, Refusal> {
    // "Refusals: 1 to 7"
    refusals::field_with_lists(field, &[ids_len])?;
    if workspace_len < refusals::workspace_needed(field.spans()) {
        return Err(Refusal::WorkspaceTooShort);
    }
    let paint = paint(field, usize::from(border_size));
    let sets = joined(field, &paint);
    // "numbered from 1 in scan order of the first span"
    let mut numbers = vec![0; field.spans()];
    let mut rooms = 0;
    for span in 0..field.spans() {
        if takes_part(field, &paint, span) && sets.first(span) == span {
            rooms += 1;
            numbers[span] = rooms;
        }
    }
    if rooms > MOST_ROOMS {
        return Err(Refusal::IdsRunOut);
    }
    let id = |span: usize| match paint[span] {
        0 if field.area[span] != 0 => numbers[sets.first(span)] as u16,
        painted => painted,
    };
    Ok(PlainRooms {
        ids: (0..field.spans()).map(id).collect(),
        max_region: rooms as u16,
    })
}

/// "Border paint as before": the id that each span is painted with, 0 for none.
fn paint(field: &Field, border: usize) -> Vec<u16> {
    let mut paint = vec![0; field.spans()];
    if border == 0 {
        return paint;
    }
    let (w, h) = (usize::from(field.w), usize::from(field.h));
    for cell in 0..field.cells() {
        let (x, z) = (cell % w, cell / w);
        // later paint over earlier: left, right, low, high
        let strips = [x < border, x + border >= w, z < border, z + border >= h];
        let Some(last) = strips.iter().rposition(|&held| held) else {
            continue;
        };
        for span in field.spans_in(cell).filter(|&span| field.area[span] != 0) {
            paint[span] = FLAG + last as u16 + 1;
        }
    }
    paint
}

/// "painted spans taking no part and joining nothing".
fn takes_part(field: &Field, paint: &[u16], span: usize) -> bool {
    field.area[span] != 0 && paint[span] == 0
}

/// Sets of spans, each told by its first.
struct Sets {
    below: Vec<usize>,
}

impl Sets {
    fn first(&self, mut span: usize) -> usize {
        while self.below[span] != span {
            span = self.below[span];
        }
        span
    }

    fn join(&mut self, a: usize, b: usize) {
        let (a, b) = (self.first(a), self.first(b));
        self.below[a.max(b)] = a.min(b);
    }
}

/// "sets of walkable spans of one area joined by connections".
fn joined(field: &Field, paint: &[u16]) -> Sets {
    let mut sets = Sets {
        below: (0..field.spans()).collect(),
    };
    for cell in 0..field.cells() {
        for span in field.spans_in(cell) {
            for d in DIRECTIONS {
                let Some((_, other)) = field.neighbour(cell, span, d) else {
                    continue;
                };
                let both = takes_part(field, paint, span) && takes_part(field, paint, other);
                if both && field.area[span] == field.area[other] {
                    sets.join(span, other);
                    // paths stay short
                    sets.below[span] = sets.first(span);
                }
            }
        }
    }
    sets
}
