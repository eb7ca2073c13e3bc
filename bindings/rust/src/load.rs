//! Field files that come in pieces.

use crate::{sys, Field, Refusal, Sizes};
use core::fmt;

/// The lists that a loader writes the field into. What is past the field keeps what it held.
#[derive(Debug)]
pub struct Lists<'a> {
    /// At least as many as the loader's most cells.
    pub index: &'a mut [u32],
    /// At least as many as the loader's most cells.
    pub count: &'a mut [u8],
    /// At least as many as the loader's most spans.
    pub area: &'a mut [u8],
    /// At least four times as many as the loader's most spans.
    pub con: &'a mut [u8],
}

/// Takes a field file in pieces of any length. It is a few numbers and owns nothing: the lists are lent to each call.
///
/// However the file is cut, the loader, the lists and the answers are those of the whole file. After a refusal of the file or a
/// declared end every further call gives the same answer and changes nothing. That is proved.
///
/// ```
/// use gussetraft::{Lists, Loader, Refusal};
///
/// // One cell with one span: header (w, h and three sizes), cell, span, end.
/// let file = [1, 1, 0, 1, 0, 0, 0, 8, 0, 20, 0, 2, 1, 3, 7, 255, 255, 255, 255, 4];
/// let (mut index, mut count, mut area, mut con) = ([0; 16], [0; 16], [0; 16], [0; 64]);
/// let mut lists = Lists { index: &mut index, count: &mut count, area: &mut area, con: &mut con };
///
/// let mut loader = Loader::new(16, 16);
/// for piece in file.chunks(3) {
///     loader.piece(piece, &mut lists)?;
/// }
/// let loaded = loader.end()?;
/// assert_eq!((loaded.w, loaded.h, loaded.spans), (1, 1, 1));
/// assert_eq!(loaded.sizes.merge_region_area, 20);
/// assert_eq!(loaded.field(&lists).area, [7]);
///
/// // A cell where a span is due: refused at its kind byte.
/// let mut loader = Loader::new(16, 16);
/// loader.piece(&file[..13], &mut lists)?;
/// let refused = loader.piece(&[2, 0, 4], &mut lists).unwrap_err();
/// assert_eq!((refused.refusal, refused.position), (Refusal::Malformed, Some(13)));
/// assert_eq!(refused.to_string(), "refused 20 at byte 13: the file is malformed: unknown kind, a record out of place, cut short, or bytes after the end");
/// assert_eq!(loader.end(), Err(refused));
/// # Ok::<(), gussetraft::LoadRefusal>(())
/// ```
#[derive(Debug, Clone, PartialEq, Eq)]
pub struct Loader {
    numbers: [u32; sys::LOADER_LEN],
}

impl Loader {
    /// A loader before the first byte, for a field of at most so many cells and spans.
    pub fn new(most_cells: u32, most_spans: u32) -> Self {
        let mut numbers = [0; sys::LOADER_LEN];
        sys::load_begin(most_cells, most_spans, &mut numbers);
        Self { numbers }
    }

    /// The next piece of the file; it may be empty.
    ///
    /// # Errors
    ///
    /// Refusals 20 and 21, with their position; the lists then hold the field as far as it was read. 3, with no position, where a
    /// list is too short for the loader's limits; nothing changes then.
    pub fn piece(&mut self, piece: &[u8], lists: &mut Lists<'_>) -> Result<(), LoadRefusal> {
        let Lists {
            index,
            count,
            area,
            con,
        } = lists;
        LoadRefusal::of(sys::load_piece(
            piece,
            index,
            count,
            area,
            con,
            &mut self.numbers,
        ))
    }

    /// The end of the file: it is complete only now.
    ///
    /// # Errors
    ///
    /// Refusals 20 and 21, with their position.
    pub fn end(&mut self) -> Result<Loaded, LoadRefusal> {
        LoadRefusal::of(sys::load_end(&mut self.numbers))?;
        let [_, _, _, _, _, _, w, h, border_size, min_region_area, merge_region_area, _, spans, ..] =
            self.numbers;
        // the header's numbers have two bytes each
        Ok(Loaded {
            w: w as u16,
            h: h as u16,
            sizes: Sizes {
                border_size: border_size as u16,
                min_region_area: min_region_area as u16,
                merge_region_area: merge_region_area as u16,
            },
            spans: spans as usize,
        })
    }
}

/// What a whole file describes, beside the lists.
#[derive(Debug, Clone, Copy, PartialEq, Eq)]
pub struct Loaded {
    /// How many cells a row has.
    pub w: u16,
    /// How many rows there are.
    pub h: u16,
    /// The sizes for the region entry.
    pub sizes: Sizes,
    /// How many spans there are.
    pub spans: usize,
}

impl Loaded {
    /// The field that the lists hold at their beginnings.
    ///
    /// # Panics
    ///
    /// Where the lists are shorter than the field: they are not those of the loading.
    pub fn field<'a>(&self, lists: &'a Lists<'_>) -> Field<'a> {
        let cells = usize::from(self.w) * usize::from(self.h);
        Field {
            w: self.w,
            h: self.h,
            index: &lists.index[..cells],
            count: &lists.count[..cells],
            area: &lists.area[..self.spans],
            con: &lists.con[..4 * self.spans],
        }
    }
}

/// Why a file, or a call with a piece of it, was refused.
#[derive(Debug, Clone, Copy, PartialEq, Eq)]
pub struct LoadRefusal {
    /// 20, 21, or 3 where a lent list is too short.
    pub refusal: Refusal,
    /// Where in the file, counted from 0, for 20 and 21: the kind byte of the record at fault, the first byte after the end record,
    /// or, for a file cut short, the number of bytes received. A place past [`u32::MAX`] is given as that.
    pub position: Option<u32>,
}

impl LoadRefusal {
    fn of(answer: sys::LoadAnswer) -> Result<(), Self> {
        match crate::accepted(answer.refusal.try_into().unwrap_or(u16::MAX)) {
            Ok(()) => Ok(()),
            Err(refusal) => Err(Self {
                refusal,
                position: (refusal != Refusal::WrongLength).then_some(answer.position),
            }),
        }
    }
}

impl fmt::Display for LoadRefusal {
    fn fmt(&self, f: &mut fmt::Formatter<'_>) -> fmt::Result {
        let (number, meaning) = (self.refusal.number(), self.refusal.meaning());
        match self.position {
            Some(position) => write!(f, "refused {number} at byte {position}: {meaning}"),
            None => write!(f, "refused {number}: {meaning}"),
        }
    }
}

impl core::error::Error for LoadRefusal {}
