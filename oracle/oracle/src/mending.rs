//! The mending of hand-edited fields, request A11, written from document 02's words alone.

use crate::{
    field::{DIRECTIONS, Field, NONE},
    refusals::{self, Refusal},
};

/// A connection that was set to none.
#[derive(Debug, Clone, Copy, PartialEq, Eq)]
pub struct Change {
    /// The number of the span.
    pub span: usize,
    /// The direction.
    pub direction: usize,
    /// The layer that was named.
    pub layer: u8,
}

/// What the mending leaves.
#[derive(Debug, Clone, PartialEq, Eq)]
pub struct Mended {
    /// The field's connections.
    pub con: Vec<u8>,
    /// "each change: span, direction, old layer, in span and direction order".
    pub changes: Vec<Change>,
}

impl Mended {
    /// The changes as three numbers each.
    pub fn numbers(&self) -> Vec<u16> {
        let three = |change: &Change| {
            let (span, direction) = (change.span as u16, change.direction as u16);
            [span, direction, u16::from(change.layer)]
        };
        self.changes.iter().flat_map(three).collect()
    }
}

/// Mends a field, the list of changes having so many places.
pub fn mend(field: &Field, places: usize) -> Result<Mended, Refusal> {
    // "Refusals: 1 to 4 as before"
    refusals::cells(field)?;
    let mended = mended(field);
    // "then 27 for a list without room, exactly when the changes outnumber its places"
    if mended.changes.len() > places {
        return Err(Refusal::NoRoom);
    }
    Ok(mended)
}

/// "keeps exactly the connections that lead to an existing span and are answered from it, and sets every other to none".
fn mended(field: &Field) -> Mended {
    let cell_of = cell_of_spans(field);
    let mut mended = Mended {
        con: field.con.clone(),
        changes: Vec::new(),
    };
    for span in 0..field.spans() {
        for direction in DIRECTIONS {
            let Some(layer) = field.layer_beside(span, direction) else {
                continue;
            };
            let there = end_of(field, &cell_of, span, direction);
            let back = there.and_then(|there| end_of(field, &cell_of, there, (direction + 2) % 4));
            if back != Some(span) {
                mended.con[4 * span + direction] = NONE;
                mended.changes.push(Change {
                    span,
                    direction,
                    layer,
                });
            }
        }
    }
    mended
}

/// The cell of each span.
fn cell_of_spans(field: &Field) -> Vec<usize> {
    let layers = field.count.iter().enumerate();
    layers
        .flat_map(|(cell, &count)| vec![cell; usize::from(count)])
        .collect()
}

/// The span that a connection leads to, if there is one.
fn end_of(field: &Field, cell_of: &[usize], span: usize, direction: usize) -> Option<usize> {
    let layer = field.layer_beside(span, direction)?;
    let beside = field.cell_beside(cell_of[span], direction)?;
    field.spans_in(beside).nth(usize::from(layer))
}
