//! The refusals of documents 01 and 02, written from their words alone.

use crate::field::{DIRECTIONS, Field};
use std::fmt;

/// The reasons to refuse, by their numbers.
#[derive(Debug, Clone, Copy, PartialEq, Eq)]
pub enum Refusal {
    /// The width or the height is above 256.
    GridTooLarge = 1,
    /// There are more than 65,000 spans.
    TooManySpans = 2,
    /// A lent list other than the workspace has the wrong length.
    WrongLength = 3,
    /// A count above 63, a wrong index, or counts that don't sum to n.
    WrongCells = 4,
    /// A connection leaves the grid or names a layer that the cell lacks.
    ConnectionAstray = 5,
    /// A connection that the other side doesn't answer.
    ConnectionUnanswered = 6,
    /// The workspace is too short.
    WorkspaceTooShort = 7,
    /// The greatest distance is above 510, or a distance above the greatest.
    DistanceTooGreat = 8,
    /// A scale of 0 or above 256.
    WrongScale = 9,
    /// A list of ids of a wrong length, or with an unflagged id above max_region.
    WrongIds = 10,
    /// A rectangle that is empty or not in the field.
    WrongRect = 11,
    /// A successful flood would make the next id 0x8000 (request A6).
    IdsRunOut = 12,
    /// A sum that expansion computes would exceed 65,535 (request A6).
    SumTooGreat = 13,
    /// A span number not below n (request A7).
    NoSuchSpan = 14,
    /// A file with an unknown or misplaced record, cut short, or with bytes after the end.
    BadFile = 20,
    /// A file with too many cells or spans for the program.
    FileTooLarge = 21,
    /// More changes than the list of changes has places.
    NoRoom = 27,
    /// A stored pass 1 or raw value above 510.
    WrongStored = 31,
}

impl fmt::Display for Refusal {
    fn fmt(&self, f: &mut fmt::Formatter) -> fmt::Result {
        write!(f, "refused {}", *self as u8)
    }
}

const SIDE_LIMIT: u16 = 256;
const SPAN_LIMIT: usize = 65_000;
const COUNT_LIMIT: u8 = 63;
const DISTANCE_LIMIT: u16 = 510;

/// The least length of the workspace for a number of spans.
pub fn workspace_needed(spans: usize) -> usize {
    128 * spans + 4_096
}

/// Whether the distance entry refuses the field, lent lists of these lengths to write to.
pub fn distance_entry(field: &Field, raw_len: usize, blurred_len: usize) -> Result<(), Refusal> {
    field_with_lists(field, &[raw_len, blurred_len])
}

/// Whether the region entry refuses the field, lent these distances and lists of these lengths to write to.
pub fn region_entry(
    field: &Field,
    distances: &[u16],
    max_distance: u16,
    ids_len: usize,
    workspace_len: usize,
) -> Result<(), Refusal> {
    field_with_lists(field, &[distances.len(), ids_len])?;
    require(
        workspace_len >= workspace_needed(field.spans()),
        Refusal::WorkspaceTooShort,
    )?;
    let in_range = max_distance <= DISTANCE_LIMIT
        && distances.iter().all(|&distance| distance <= max_distance);
    require(in_range, Refusal::DistanceTooGreat)
}

/// Whether the entry that tells why (request A7) refuses before it builds, lent a trail of this length: "14 for a span number not below n, after 1
/// to 8"; "a lent list of n numbers (another length is 3)".
pub fn explain_entry(
    field: &Field,
    distances: &[u16],
    max_distance: u16,
    trail_len: usize,
    workspace_len: usize,
    span: u32,
) -> Result<(), Refusal> {
    region_entry(field, distances, max_distance, trail_len, workspace_len)?;
    require((span as usize) < field.spans(), Refusal::NoSuchSpan)
}

/// Refusals 1 to 6. The lists beside the field's own have one entry a span.
pub fn field_with_lists(field: &Field, span_lists: &[usize]) -> Result<(), Refusal> {
    cells_with_lists(field, span_lists)?;
    require(
        every_connection(field, stays_inside),
        Refusal::ConnectionAstray,
    )?;
    require(
        every_connection(field, is_answered),
        Refusal::ConnectionUnanswered,
    )
}

/// Refusals 1 to 4 of a field with no lists beside its own.
pub fn cells(field: &Field) -> Result<(), Refusal> {
    cells_with_lists(field, &[])
}

fn cells_with_lists(field: &Field, span_lists: &[usize]) -> Result<(), Refusal> {
    require(
        field.w <= SIDE_LIMIT && field.h <= SIDE_LIMIT,
        Refusal::GridTooLarge,
    )?;
    require(field.spans() <= SPAN_LIMIT, Refusal::TooManySpans)?;
    require(lengths_fit(field, span_lists), Refusal::WrongLength)?;
    require(cells_fit(field), Refusal::WrongCells)
}

fn require(fits: bool, refusal: Refusal) -> Result<(), Refusal> {
    if fits { Ok(()) } else { Err(refusal) }
}

fn lengths_fit(field: &Field, span_lists: &[usize]) -> bool {
    field.index.len() == field.cells()
        && field.count.len() == field.cells()
        && field.con.len() == 4 * field.spans()
        && span_lists.iter().all(|&len| len == field.spans())
}

fn cells_fit(field: &Field) -> bool {
    let mut sum = 0;
    for (&index, &count) in field.index.iter().zip(&field.count) {
        if count > COUNT_LIMIT || (count > 0 && index as usize != sum) {
            return false;
        }
        sum += usize::from(count);
    }
    sum == field.spans()
}

/// Whether a test holds of every connection: its cell, its span, its direction and the layer that it names.
fn every_connection(field: &Field, test: fn(&Field, usize, usize, usize, u8) -> bool) -> bool {
    (0..field.cells()).all(|cell| {
        field.spans_in(cell).all(|span| {
            DIRECTIONS
                .into_iter()
                .all(|d| match field.layer_beside(span, d) {
                    Some(layer) => test(field, cell, span, d, layer),
                    None => true,
                })
        })
    })
}

fn stays_inside(field: &Field, cell: usize, _span: usize, d: usize, layer: u8) -> bool {
    field
        .cell_beside(cell, d)
        .is_some_and(|beside| layer < field.count[beside])
}

fn is_answered(field: &Field, cell: usize, span: usize, d: usize, _layer: u8) -> bool {
    field
        .neighbour(cell, span, d)
        .and_then(|(beside, other)| field.neighbour(beside, other, (d + 2) % 4))
        .is_some_and(|(_, back)| back == span)
}
