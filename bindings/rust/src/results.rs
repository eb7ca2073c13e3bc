//! Stored results: the ids of a field's spans, in span order, as a file. Numbers are little-endian.
//!
//! The old form is a record of three bytes a span, 5 and the id, and the end record, the byte 4. The new form has runs of equal ids: a record of five
//! bytes each, 6, the id and the length, 1 to 65,535, every run as long as equal ids and that limit allow, and the end record. After every 64 runs
//! it has a record of five bytes more, 7 and the number of spans so far. A result has one file of each form, and each way back returns the very bytes (that is proved).
//!
//! ```
//! use gussetraft::results::{pack, unpack, Refusal};
//!
//! // spans of ids 7, 7, 7 and 258
//! let old = [5, 7, 0, 5, 7, 0, 5, 7, 0, 5, 2, 1, 4];
//! let mut new = [0; 32];
//! let length = pack(&old, &mut new)?;
//! assert_eq!(new[..length], [6, 7, 0, 3, 0, 6, 2, 1, 1, 0, 4]);
//!
//! let mut back = [0; 13];
//! assert_eq!(unpack(&new[..length], &mut back)?, 13);
//! assert_eq!(back, old);
//! assert_eq!(unpack(&new[..length], &mut back[..12]), Err(Refusal::NoRoom));
//! # Ok::<(), Refusal>(())
//! ```

use crate::sys;
use core::fmt;

/// Why a stored result was refused, by document 02's numbers; nothing was written then.
///
/// They are looked for in this order over the whole file, and the first that applies is given.
#[derive(Debug, Clone, Copy, PartialEq, Eq, PartialOrd, Ord, Hash)]
#[repr(u16)]
pub enum Refusal {
    /// 22: an unknown kind, cut short, no end, bytes after the end, a run of length 0, or the other form.
    Malformed = 22,
    /// 23: a run goes on with the id of the one before it, which is shorter than 65,535 spans.
    NotLongest = 23,
    /// 24: the output would exceed its list.
    NoRoom = 24,
    /// 25: a kind 7 record has a wrong number of spans; looked for between 23 and 24.
    WrongNumber = 25,
    /// 26: the span is beyond the end; looked for last.
    Beyond = 26,
}

impl Refusal {
    /// Every refusal, in the order of the numbers.
    pub const ALL: [Self; 5] = [
        Self::Malformed,
        Self::NotLongest,
        Self::NoRoom,
        Self::WrongNumber,
        Self::Beyond,
    ];

    /// Document 02's number.
    pub const fn number(self) -> u16 {
        self as u16
    }

    /// The refusal of a number.
    pub const fn from_number(number: u16) -> Option<Self> {
        match number {
            22 => Some(Self::Malformed),
            23 => Some(Self::NotLongest),
            24 => Some(Self::NoRoom),
            25 => Some(Self::WrongNumber),
            26 => Some(Self::Beyond),
            _ => None,
        }
    }

    /// What the number means.
    pub const fn meaning(self) -> &'static str {
        match self {
            Self::Malformed => "the stored result is malformed",
            Self::NotLongest => "the runs of the stored result are not the longest",
            Self::NoRoom => "the output would exceed its list",
            Self::WrongNumber => "a number of spans in the stored result is wrong",
            Self::Beyond => "the span is beyond the end",
        }
    }
}

impl fmt::Display for Refusal {
    fn fmt(&self, f: &mut fmt::Formatter<'_>) -> fmt::Result {
        write!(f, "refused {}: {}", self.number(), self.meaning())
    }
}

impl core::error::Error for Refusal {}

/// No answer of libgussetraft.a but 0 and the numbers of [`Refusal`] is possible (that is proved).
fn accepted(number: u64) -> Result<(), Refusal> {
    match u16::try_from(number).ok().and_then(Refusal::from_number) {
        Some(refusal) => Err(refusal),
        None => {
            assert!(number == 0, "libgussetraft.a is not that of this crate");
            Ok(())
        }
    }
}

/// A file of the old form into the new one; gives how many bytes were written. What is past them keeps what it held.
///
/// The output is never more than 6 bytes a span and 1. An old file whose new form would need a number of spans above 4,294,967,295 is 22.
///
/// # Errors
///
/// 22, and 24 exactly if the output would exceed `out`. Nothing is written then.
pub fn pack(old: &[u8], out: &mut [u8]) -> Result<usize, Refusal> {
    let [refusal, length] = sys::pack(old, out);
    accepted(refusal)?;
    Ok(length as usize)
}

/// A file of the new form into the old one, likewise. The output has 3 bytes a span and 1.
///
/// # Errors
///
/// 22, 23, 25, and 24 exactly if the output would exceed `out`. Nothing is written then.
pub fn unpack(new: &[u8], out: &mut [u8]) -> Result<usize, Refusal> {
    let [refusal, length] = sys::unpack(new, out);
    accepted(refusal)?;
    Ok(length as usize)
}

/// What a reader of one span's id gives.
#[derive(Debug, Clone, Copy, PartialEq, Eq)]
pub struct Found {
    /// The span's id, or why there is none.
    pub id: Result<u16, Refusal>,
    /// The stretch that was read, 64 runs each, counted from 0; 0 where refused before one was chosen.
    pub stretch: u32,
}

fn found([refusal, id, stretch]: [u32; 3]) -> Found {
    Found {
        id: accepted(refusal.into()).map(|()| id as u16),
        stretch,
    }
}

/// The id of one span from a stored result of the new form, by way of its kind 7 records and one stretch, read no more.
///
/// On every file that [`id_at_whole`] accepts the two are equal, 26 included (that is proved). On other files the answer may differ.
///
/// ```
/// use gussetraft::results::{id_at, id_at_whole, Refusal};
///
/// let file = [6, 7, 0, 3, 0, 6, 2, 1, 1, 0, 4];
/// assert_eq!(id_at(&file, 3).id, Ok(258));
/// assert_eq!(id_at(&file, 4).id, Err(Refusal::Beyond));
/// assert_eq!(id_at(&file, 2), id_at_whole(&file, 2));
/// ```
pub fn id_at(file: &[u8], span: u32) -> Found {
    found(sys::id_at(file, span))
}

/// The full reader: the whole file is checked, 22, 23, 25, and then 26 is looked for.
pub fn id_at_whole(file: &[u8], span: u32) -> Found {
    found(sys::id_at_whole(file, span))
}
