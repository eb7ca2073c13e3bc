//! Safe bindings to Gussetraft: from the cells, connections and area codes of a compact heightfield to distances and one
//! region id per span.
//!
//! What the functions answer is proved, for every input, damaged lists included; `docs/PROOFS.md` of the Gussetraft
//! repository says what and where. Nothing is allocated, kept or shared: every list is the caller's, so calls on different
//! lists may run on several threads at once.
//!
//! ```
//! use gussetraft::{build_distance_field, build_regions, workspace_len, Field, Sizes};
//!
//! // 3 by 3 cells with one span each. A connection is the layer that it leads to; 255 is none.
//! // The directions are (-1, 0), (0, 1), (1, 0), (0, -1).
//! let mut con = Vec::new();
//! for z in 0..3 {
//!     for x in 0..3 {
//!         for inside in [x > 0, z < 2, x < 2, z > 0] {
//!             con.push(if inside { 0 } else { 255 });
//!         }
//!     }
//! }
//! let field = Field {
//!     w: 3,
//!     h: 3,
//!     index: &[0, 1, 2, 3, 4, 5, 6, 7, 8],
//!     count: &[1; 9],
//!     area: &[1; 9],
//!     con: &con,
//! };
//!
//! let (mut raw, mut blurred) = ([0; 9], [0; 9]);
//! let max_distance = build_distance_field(&field, &mut raw, &mut blurred)?;
//! assert_eq!(max_distance, 2);
//! assert_eq!(blurred, [0, 0, 0, 0, 2, 0, 0, 0, 0]);
//!
//! let sizes = Sizes { border_size: 0, min_region_area: 8, merge_region_area: 20 };
//! let mut workspace = vec![0; workspace_len(9)];
//! let mut ids = [0; 9];
//! let regions = build_regions(&field, &blurred, max_distance, &sizes, &mut workspace, &mut ids)?;
//! assert_eq!(ids, [1; 9]);
//! assert_eq!((regions.max_region, regions.overlaps, regions.cut), (1, 0, 0));
//!
//! // Bad input is refused, and every list holds what it held before.
//! let damaged = Field { area: &[1; 8], ..field };
//! let refusal = build_distance_field(&damaged, &mut raw, &mut blurred).unwrap_err();
//! assert_eq!(refusal.number(), 3);
//! assert_eq!(blurred[4], 2);
//! # Ok::<(), gussetraft::Refusal>(())
//! ```

#![no_std]

#[cfg(feature = "alloc")]
extern crate alloc;

mod load;
#[cfg(feature = "alloc")]
pub mod rerecast;
pub mod results;
mod sys;
mod why;
#[cfg(feature = "alloc")]
pub mod workspace;

pub use load::{Lists, LoadRefusal, Loaded, Loader};
pub use why::{explain_span, Explanation, GaveBack, Reason};

use core::fmt;

/// The area code of a span that cannot be walked on.
pub const NOT_WALKABLE: u8 = 0;

/// The connection byte of a side that leads nowhere.
pub const NO_CONNECTION: u8 = 255;

/// Ids with this bit are a painted border's: 1 to 4 beside it for the left columns, the right columns, the low rows and the
/// high rows.
pub const BORDER: u16 = 0x8000;

/// The lists of a compact heightfield. Nothing is asked of them: what does not fit is refused.
#[derive(Debug, Clone, Copy, PartialEq, Eq)]
pub struct Field<'a> {
    /// How many cells a row has, 256 at most.
    pub w: u16,
    /// How many rows there are, 256 at most.
    pub h: u16,
    /// For each cell, row by row and x fastest, the number of its first span: the sum of the counts before it. It is not
    /// looked at where the cell is empty.
    pub index: &'a [u32],
    /// For each cell, how many spans it has, 63 at most.
    pub count: &'a [u8],
    /// For each span its area; [`NOT_WALKABLE`] is 0. There are 65,000 spans at most.
    pub area: &'a [u8],
    /// For each span four bytes, in the directions (-1, 0), (0, 1), (1, 0), (0, -1): a layer of the cell there, or
    /// [`NO_CONNECTION`]. Each connection must be answered from the other side. (`<[[u8; 4]]>::as_flattened` gives such a
    /// list where there are four bytes a span.)
    pub con: &'a [u8],
}

/// The sizes that the region entry takes, the two areas in spans.
#[derive(Debug, Clone, Copy, Default, PartialEq, Eq)]
pub struct Sizes {
    /// How many rows and columns are painted as a border at each side; 0 is none.
    pub border_size: u16,
    /// Regions that, with those they are joined to, have fewer spans are removed, unless they touch the border.
    pub min_region_area: u16,
    /// Regions of up to so many spans are merged into a neighbour even at a wall.
    pub merge_region_area: u16,
}

/// What the region entry gives beside the ids.
#[derive(Debug, Clone, Copy, PartialEq, Eq)]
pub struct Regions {
    /// The greatest id in use: the ids in use are exactly 1 to `max_region`, and those of the border; 0 where none is in use. Of
    /// [`build_regions_compared`] the last number given: there they are 1 (5 with a border) to `max_region` - 1.
    pub max_region: u16,
    /// How many regions, before the merge, lie over themselves.
    pub overlaps: u16,
    /// How many regions, absorbed ones counted in their absorber, have a contour that was cut short: after 40,000 steps the walk was not back, so
    /// the neighbour list is partial. A region of at most 10,000 spans is never cut short.
    pub cut: u16,
}

/// Why a call was refused. Every lent list then holds what it held before; but after 12 and 13 the workspace holds zeros.
///
/// They are looked for in this order, and the first that applies is given.
#[derive(Debug, Clone, Copy, PartialEq, Eq, PartialOrd, Ord, Hash)]
#[repr(u16)]
pub enum Refusal {
    /// 1: the width or the height is above 256.
    TooWide = 1,
    /// 2: there are more than 65,000 spans.
    TooMany = 2,
    /// 3: a list other than the workspace has the wrong length.
    WrongLength = 3,
    /// 4: a cell's count is above 63, its index is wrong, or the counts do not sum to the number of spans.
    WrongCells = 4,
    /// 5: a connection leaves the grid or names a layer that the cell lacks.
    WrongReach = 5,
    /// 6: a connection is not answered from the other side.
    WrongBack = 6,
    /// 7: the workspace is shorter than [`workspace_len`].
    TooShort = 7,
    /// 8: the greatest distance is above 510, or a distance is above the greatest.
    TooFar = 8,
    /// 9: the scale is 0 or above 256.
    WrongScale = 9,
    /// 10: the ids are not one a span, or one is above the greatest and not flagged.
    WrongIds = 10,
    /// 11: the rectangle is empty or not in the field.
    WrongRect = 11,
    /// 12: ids run out: a successful flood would make the next id 0x8000, or there are more than 32,767 plain rooms. Never with
    /// at most 32,000 spans.
    NoIds = 12,
    /// 13: a source distance in expansion would exceed 65,535. Never with at most 32,000 spans.
    NoSum = 13,
    /// 14: there is no span of this number. It is looked for before 12 and 13.
    NoSuchSpan = 14,
    /// 20: the file is malformed: unknown kind, a record out of place, cut short, or bytes after the end.
    Malformed = 20,
    /// 21: the file's field has more cells or spans than the loader takes.
    TooLarge = 21,
    /// 27: there are more changes than places in their list.
    NoRoom = 27,
    /// 31: a stored pass 1 or raw value is above 510.
    WrongStored = 31,
}

impl Refusal {
    /// Every refusal, in the order of the numbers.
    pub const ALL: [Self; 18] = [
        Self::TooWide,
        Self::TooMany,
        Self::WrongLength,
        Self::WrongCells,
        Self::WrongReach,
        Self::WrongBack,
        Self::TooShort,
        Self::TooFar,
        Self::WrongScale,
        Self::WrongIds,
        Self::WrongRect,
        Self::NoIds,
        Self::NoSum,
        Self::NoSuchSpan,
        Self::Malformed,
        Self::TooLarge,
        Self::NoRoom,
        Self::WrongStored,
    ];

    /// The number, 1 to 14, 20, 21, 27 or 31.
    pub const fn number(self) -> u16 {
        self as u16
    }

    /// The refusal of a number.
    pub const fn from_number(number: u16) -> Option<Self> {
        match number {
            1..=14 => Some(Self::ALL[number as usize - 1]),
            20 => Some(Self::Malformed),
            21 => Some(Self::TooLarge),
            27 => Some(Self::NoRoom),
            31 => Some(Self::WrongStored),
            _ => None,
        }
    }

    /// What the number means.
    pub const fn meaning(self) -> &'static str {
        match self {
            Self::TooWide => "the width or the height is above 256",
            Self::TooMany => "there are more than 65,000 spans",
            Self::WrongLength => "a list other than the workspace has the wrong length",
            Self::WrongCells => {
                "a cell's count is above 63, its index is wrong, or the counts do not sum to the number of spans"
            }
            Self::WrongReach => "a connection leaves the grid or names a layer that the cell lacks",
            Self::WrongBack => "a connection is not answered from the other side",
            Self::TooShort => "the workspace is shorter than 128 numbers a span and 4,096",
            Self::TooFar => {
                "the greatest distance is above 510, or a distance is above the greatest"
            }
            Self::WrongScale => "the scale is 0 or above 256",
            Self::WrongIds => {
                "the ids are not one a span, or one is above the greatest and not flagged"
            }
            Self::WrongRect => "the rectangle is empty or not in the field",
            Self::NoIds => "ids run out: the next would be 0x8000",
            Self::NoSum => "a source distance in expansion would exceed 65,535",
            Self::NoSuchSpan => "there is no span of this number",
            Self::Malformed => {
                "the file is malformed: unknown kind, a record out of place, cut short, or bytes after the end"
            }
            Self::TooLarge => "the file's field has more cells or spans than the loader takes",
            Self::WrongStored => "a stored pass 1 or raw value is above 510",
            Self::NoRoom => "there are more changes than places in their list",
        }
    }
}

impl fmt::Display for Refusal {
    fn fmt(&self, f: &mut fmt::Formatter<'_>) -> fmt::Result {
        write!(f, "refused {}: {}", self.number(), self.meaning())
    }
}

impl core::error::Error for Refusal {}

/// How many numbers the workspace of [`build_regions`] has at least, for n spans.
pub const fn workspace_len(n: usize) -> usize {
    n.saturating_mul(128).saturating_add(4_096)
}

/// Writes raw and blurred distances, one of each a span, and gives the greatest raw one.
///
/// A raw distance is the cost of some chain of moves to a span that has fewer than four neighbours of its own area: 2 for a
/// move to a neighbour, 3 for one to a corner neighbour. With one span a cell it is the cost of the cheapest such chain; where
/// cells have several spans it can be more, never less. A blurred distance is a mean of raw ones, at most the greatest.
/// `docs/DISTANCE.md` of the Gussetraft repository draws examples.
///
/// # Errors
///
/// Refusals 1 to 6. Both lists then hold what they held before.
pub fn build_distance_field(
    field: &Field<'_>,
    raw: &mut [u16],
    blurred: &mut [u16],
) -> Result<u16, Refusal> {
    let answer = sys::distance_field(field, raw, blurred);
    accepted(answer.refusal)?;
    Ok(answer.max_distance)
}

/// Writes the region id of each span; 0 is none, and an id with [`BORDER`] is a painted one.
///
/// `distances` and `max_distance` are the blurred distances and the number that [`build_distance_field`] gives, or any others
/// up to 510. The workspace has [`workspace_len`] numbers at least; what it holds does not matter, and it holds zeros after.
///
/// # Errors
///
/// Refusals 1 to 8. The workspace and the ids then hold what they held before.
pub fn build_regions(
    field: &Field<'_>,
    distances: &[u16],
    max_distance: u16,
    sizes: &Sizes,
    workspace: &mut [u16],
    ids: &mut [u16],
) -> Result<Regions, Refusal> {
    let answer = sys::regions(field, distances, max_distance, sizes, workspace, ids);
    numbers(&answer)
}

/// The same in the compared form: the numbers of the Rust, for differential runs and for tables that were made with them. Records
/// without spans are numbered there, too.
///
/// # Errors
///
/// As [`build_regions`].
pub fn build_regions_compared(
    field: &Field<'_>,
    distances: &[u16],
    max_distance: u16,
    sizes: &Sizes,
    workspace: &mut [u16],
    ids: &mut [u16],
) -> Result<Regions, Refusal> {
    let answer = sys::regions_compared(field, distances, max_distance, sizes, workspace, ids);
    numbers(&answer)
}

fn numbers(answer: &sys::RegionAnswer) -> Result<Regions, Refusal> {
    accepted(answer.refusal)?;
    Ok(Regions {
        max_region: answer.max_region,
        overlaps: answer.overlaps,
        cut: answer.cut,
    })
}

/// The most numbers that the list of changes of [`mend`] needs, for n spans: with so many it never refuses 27.
pub const fn changes_len(n: usize) -> usize {
    n.saturating_mul(12)
}

/// A field whose connections are to be mended: the lists of [`Field`], the connections lent for writing.
#[derive(Debug, PartialEq, Eq)]
pub struct Edited<'a> {
    /// How many cells a row has, 256 at most.
    pub w: u16,
    /// How many rows there are, 256 at most.
    pub h: u16,
    /// As in [`Field`].
    pub index: &'a [u32],
    /// As in [`Field`].
    pub count: &'a [u8],
    /// As in [`Field`].
    pub area: &'a [u8],
    /// As in [`Field`], with any connections.
    pub con: &'a mut [u8],
}

/// Mends a field that was edited by hand, whose connections are perhaps refused 5 or 6, and gives the number of changes.
///
/// A connection stays exactly if it leads to a span that is there and is answered from it; every other becomes
/// [`NO_CONNECTION`]. Each change is listed, in the order of spans and, for a span, of directions, as three numbers: the span,
/// the direction (0 to 3) and the layer that was named. So `changes` has a third of its length in places, one or two numbers left
/// over being none; [`changes_len`] is always enough. What is past the last change keeps what it held.
///
/// Afterwards the field is sound: none of 1 to 6 is given for its lists any more. A sound field comes back as it was, with no
/// change.
///
/// ```
/// use gussetraft::{build_distance_field, changes_len, mend, Edited, Field, Refusal, NO_CONNECTION};
///
/// // Three cells in a row, joined; then a script deleted the last span.
/// let (index, count, area) = ([0, 1, 2], [1, 1, 0], [1, 1]);
/// let mut con = [255, 255, 0, 255, 0, 255, 0, 255];
/// let field = Field { w: 3, h: 1, index: &index, count: &count, area: &area, con: &con };
/// let (mut raw, mut blurred) = ([0; 2], [0; 2]);
/// let refused = build_distance_field(&field, &mut raw, &mut blurred);
/// assert_eq!(refused, Err(Refusal::WrongReach));
///
/// let mut changes = vec![0; changes_len(area.len())];
/// let mut edited = Edited { w: 3, h: 1, index: &index, count: &count, area: &area, con: &mut con };
/// let made = mend(&mut edited, &mut changes)?;
///
/// // Span 1 led to layer 0 in direction 2.
/// assert_eq!(changes[..3 * made], [1, 2, 0]);
/// assert_eq!(con[6], NO_CONNECTION);
/// let field = Field { w: 3, h: 1, index: &index, count: &count, area: &area, con: &con };
/// build_distance_field(&field, &mut raw, &mut blurred)?;
/// # Ok::<(), Refusal>(())
/// ```
///
/// # Errors
///
/// Refusals 1 to 4, and 27 exactly if there are more changes than places. Nothing is written then.
pub fn mend(field: &mut Edited<'_>, changes: &mut [u16]) -> Result<usize, Refusal> {
    let sides = (field.w, field.h);
    let answer = sys::mend(
        sides,
        field.index,
        field.count,
        field.area,
        field.con,
        changes,
    );
    accepted(answer.refusal.try_into().unwrap_or(u16::MAX))?;
    Ok(answer.count as usize)
}

/// No answer of libgussetraft.a but 0 and the numbers of [`Refusal`] is possible (that is proved).
fn accepted(number: u16) -> Result<(), Refusal> {
    match Refusal::from_number(number) {
        Some(refusal) => Err(refusal),
        None => {
            assert!(number == 0, "libgussetraft.a is not that of this crate");
            Ok(())
        }
    }
}

/// The lists that [`build_distance_stages`] writes and [`refresh_distance_field`] brings up to date, each with a number a span.
#[derive(Debug)]
pub struct Stages<'a> {
    /// The values of pass 1.
    pub pass1: &'a mut [u16],
    /// The raw distances.
    pub raw: &'a mut [u16],
    /// The blurred distances.
    pub blurred: &'a mut [u16],
}

/// Columns x0 to x1 of rows z0 to z1, both ends included.
#[derive(Debug, Clone, Copy, PartialEq, Eq)]
pub struct Rect {
    /// The first column.
    pub x0: u16,
    /// The first row.
    pub z0: u16,
    /// The last column.
    pub x1: u16,
    /// The last row.
    pub z1: u16,
}

/// What a refresh gives: the greatest raw distance, and the rows redone in each stage, the only ones of its list that can have changed.
#[derive(Debug, Clone, PartialEq, Eq)]
pub struct Refreshed {
    /// The greatest raw distance.
    pub max_distance: u16,
    /// The rows of pass 1.
    pub pass1_rows: core::ops::RangeInclusive<u16>,
    /// The rows of pass 2.
    pub pass2_rows: core::ops::RangeInclusive<u16>,
    /// The rows of the blur.
    pub blur_rows: core::ops::RangeInclusive<u16>,
}

/// As [`build_distance_field`], and writes the values of pass 1 too: the three lists that [`refresh_distance_field`] takes.
///
/// # Errors
///
/// Refusals 1 to 6. Nothing is written then.
pub fn build_distance_stages(field: &Field<'_>, stages: &mut Stages<'_>) -> Result<u16, Refusal> {
    let answer = sys::distance_stages(field, stages.pass1, stages.raw, stages.blurred);
    accepted(answer.refusal)?;
    Ok(answer.max_distance)
}

/// Brings the three lists up to date after a change of area codes in a rectangle, connections unchanged.
///
/// Where they are those of the field before the change, all three and the greatest distance are then what a build of the changed field gives; only
/// rows near the change are worked out again.
///
/// ```
/// use gussetraft::{build_distance_stages, refresh_distance_field, Field, Rect, Refusal, Stages, NO_CONNECTION};
///
/// // a corridor of 1 by 7 cells, and a door in its middle
/// let (index, count) = ([0, 1, 2, 3, 4, 5, 6], [1; 7]);
/// let mut con = [NO_CONNECTION; 28];
/// for z in 0..6 {
///     con[4 * z + 1] = 0;
///     con[4 * (z + 1) + 3] = 0;
/// }
/// let mut area = [1; 7];
/// let (mut pass1, mut raw, mut blurred) = ([0; 7], [0; 7], [0; 7]);
/// let mut stages = Stages { pass1: &mut pass1, raw: &mut raw, blurred: &mut blurred };
/// let field = Field { w: 1, h: 7, index: &index, count: &count, area: &area, con: &con };
/// build_distance_stages(&field, &mut stages)?;
/// let door = Rect { x0: 0, z0: 3, x1: 0, z1: 3 };
/// for code in [2, 1, 2] {
///     area[3] = code; // it closes, opens and closes
///     let field = Field { w: 1, h: 7, index: &index, count: &count, area: &area, con: &con };
///     let done = refresh_distance_field(&field, door, &mut stages)?;
///     for z in done.blur_rows {
///         let sent = stages.blurred[usize::from(z)]; // only these rows are sent on
///         assert_eq!(sent, 0);
///     }
/// }
/// # Ok::<(), Refusal>(())
/// ```
///
/// # Errors
///
/// Refusals 1 to 6, 11 and 31. Nothing is written then.
pub fn refresh_distance_field(
    field: &Field<'_>,
    rect: Rect,
    stages: &mut Stages<'_>,
) -> Result<Refreshed, Refusal> {
    let corners = [rect.x0, rect.z0, rect.x1, rect.z1];
    let [refusal, max_distance, a, b, c, d, e, f] =
        sys::refresh(field, corners, stages.pass1, stages.raw, stages.blurred);
    accepted(refusal)?;
    Ok(Refreshed {
        max_distance,
        pass1_rows: a..=b,
        pass2_rows: c..=d,
        blur_rows: e..=f,
    })
}

/// Plain rooms, with no watershed: one id for each set of walkable spans of one area that connections join. Gives the number of
/// rooms, which is the greatest id of one.
///
/// Rooms are numbered from 1 in the order of their first spans. The border is painted as [`build_regions`] paints it, and
/// painted spans join nothing. Two walkable spans of one area that are not painted have the same id exactly if a chain of such
/// spans joins them; a span that is not walkable has id 0. The workspace is that of [`build_regions`].
///
/// ```
/// use gussetraft::{build_rooms, workspace_len, Field, Refusal, NO_CONNECTION};
///
/// // Six cells in a row, all joined; the third is a wall, and the last two are another area.
/// let mut con = [NO_CONNECTION; 24];
/// for x in 0..5 {
///     con[4 * x + 2] = 0;
///     con[4 * (x + 1)] = 0;
/// }
/// let area = [1, 1, 0, 1, 2, 2];
/// let field = Field { w: 6, h: 1, index: &[0, 1, 2, 3, 4, 5], count: &[1; 6], area: &area, con: &con };
/// let (mut workspace, mut ids) = (vec![0; workspace_len(6)], [0; 6]);
/// let rooms = build_rooms(&field, 0, &mut workspace, &mut ids)?;
/// assert_eq!(ids, [1, 1, 0, 2, 3, 3]);
/// assert_eq!(rooms, 3);
/// # Ok::<(), Refusal>(())
/// ```
///
/// # Errors
///
/// Refusals 1 to 7. The workspace and the ids then hold what they held before. And 12 where there are more than 32,767 rooms:
/// the ids then hold what they held before, the workspace zeros.
pub fn build_rooms(
    field: &Field<'_>,
    border_size: u16,
    workspace: &mut [u16],
    ids: &mut [u16],
) -> Result<u16, Refusal> {
    let answer = sys::rooms(field, border_size, workspace, ids);
    accepted(answer.refusal)?;
    Ok(answer.max_region)
}

/// The size record of a room, in metres; each value is exact.
#[derive(Debug, Clone, Copy, Default, PartialEq)]
pub struct Room {
    /// The floor size in square metres: count·k·k/4096.
    pub floor: f64,
    /// The left edge: the least column times k/64.
    pub x_least: f64,
    /// The right edge: the greatest column and 1, times k/64.
    pub x_past: f64,
    /// The low edge: the least row times k/64.
    pub z_least: f64,
    /// The high edge: the greatest row and 1, times k/64.
    pub z_past: f64,
    /// The area code of its first span.
    pub area: u16,
    /// How many spans it has.
    pub count: u16,
}

/// The size of one room of a finished result, with cells of side k/64 metre.
///
/// `ids` and `max_region` are those that [`build_regions`] or [`build_rooms`] gives, or any others. An id that is flagged, has no
/// spans or is not from 1 to `max_region` has a record of zeros.
///
/// ```
/// use gussetraft::{measure_room, Field, Refusal, Room, NO_CONNECTION};
///
/// // Three cells in a row, of half a metre; the last two are room 1.
/// let con = [NO_CONNECTION, NO_CONNECTION, 0, NO_CONNECTION, 0, NO_CONNECTION, 0, NO_CONNECTION, 0, 255, 255, 255];
/// let field = Field { w: 3, h: 1, index: &[0, 1, 2], count: &[1; 3], area: &[0, 4, 4], con: &con };
/// let room = measure_room(&field, &[0, 1, 1], 1, 32, 1)?;
/// assert_eq!(room, Room { floor: 0.5, x_least: 0.5, x_past: 1.5, z_least: 0.0, z_past: 0.5, area: 4, count: 2 });
/// assert_eq!(measure_room(&field, &[0, 1, 1], 1, 32, 2)?, Room::default());
/// # Ok::<(), Refusal>(())
/// ```
///
/// # Errors
///
/// Refusals 1 to 6, 9 (k 0 or above 256) and 10 (ids that are not one a span, or one above `max_region` and not flagged).
pub fn measure_room(
    field: &Field<'_>,
    ids: &[u16],
    max_region: u16,
    k: u16,
    id: u16,
) -> Result<Room, Refusal> {
    let (sizes, [refusal, area, count]) = sys::measure(field, ids, [max_region, k, id]);
    accepted(refusal)?;
    let [floor, x_least, x_past, z_least, z_past] = sizes;
    Ok(Room {
        floor,
        x_least,
        x_past,
        z_least,
        z_past,
        area,
        count,
    })
}
