//! Refusals, as far as a file can meet with them.

use super::{
    Mistake, Model,
    spans::{Spans, cell_beside},
};
use crate::field::{Field, NONE};

/// Refusals 1, 4, 5 and 6. There are never too many spans in a file for 2, the lengths of its lists fit and its indices
/// are right.
pub fn field(model: Model, field: &Field) -> Result<(), u8> {
    let sides = (!sides_fit(model, field)).then_some(1);
    let counts = (!counts_fit(model, field)).then_some(4);
    let connections = connections(model, field);
    let in_order = if model.has(Mistake::ConnectionsBeforeCounts) {
        [sides, connections, counts]
    } else if model.has(Mistake::ConnectionsBeforeSides) {
        [connections, sides, counts]
    } else {
        [sides, counts, connections]
    };
    in_order.into_iter().flatten().next().map_or(Ok(()), Err)
}

/// Refusal 8.
pub fn distances(distances: &[u16], max_distance: u16) -> Result<(), u8> {
    let in_range = max_distance <= 510 && distances.iter().all(|&d| d <= max_distance);
    if in_range { Ok(()) } else { Err(8) }
}

/// w or h above 256.
fn sides_fit(model: Model, field: &Field) -> bool {
    let limit = match model.mistake {
        Some(Mistake::SideLimit255) => 255,
        Some(Mistake::SideLimit257) => 257,
        _ => 256,
    };
    field.w <= limit && (field.h <= limit || model.has(Mistake::HeightUnlimited))
}

/// A cell count above 63.
fn counts_fit(model: Model, field: &Field) -> bool {
    let limit = match model.mistake {
        Some(Mistake::CountLimit62) => 62,
        Some(Mistake::CountLimit64) => 64,
        _ => 63,
    };
    field.count.iter().all(|&count| count <= limit)
}

/// 5 if any connection goes astray; otherwise 6 if any is not answered.
fn connections(model: Model, field: &Field) -> Option<u8> {
    let spans = Spans::new(model, field);
    let mut faults = Vec::new();
    for span in 0..spans.number() {
        for d in 0..4 {
            let layer = field.con[4 * span + d];
            if layer == NONE {
                continue;
            }
            if !stays_inside(model, field, &spans, span, d, layer) {
                faults.push(5);
            } else if !is_answered(model, &spans, span, d) {
                faults.push(6);
            }
        }
    }
    if model.has(Mistake::AstrayAndUnansweredTogether) {
        return faults.first().copied();
    }
    faults.into_iter().min()
}

/// The connection stays in the grid and names a layer that the cell has.
fn stays_inside(
    model: Model,
    field: &Field,
    spans: &Spans,
    span: usize,
    d: usize,
    layer: u8,
) -> bool {
    let from = spans.get(span);
    cell_beside(model, (spans.w, spans.h), (from.x, from.z), d).is_some_and(|beside| {
        let count = field.count[beside];
        layer < count || (model.has(Mistake::LayerOfCount) && layer == count)
    })
}

/// t's connection in direction d+2 leads to s.
fn is_answered(model: Model, spans: &Spans, span: usize, d: usize) -> bool {
    if model.has(Mistake::NoAnswer) {
        return true;
    }
    let back = if model.has(Mistake::AnswerInNextDirection) {
        d + 1
    } else {
        d + 2
    };
    let answer = spans
        .neighbour(span, d)
        .and_then(|other| spans.neighbour(other, back));
    if model.has(Mistake::AnyAnswer) {
        return answer.is_some();
    }
    answer == Some(span)
}
