//! Document 01 written out from its sentences, apart from rerecast's files: a second witness beside the unchanged Rust.
//!
//! A model can be given one [`Mistake`]. Fields on which a mistaken model answers otherwise than the right one catch
//! that mistake: this is how the stored vectors are judged.

mod distance;
mod file;
mod growth;
mod merge;
mod mistake;
mod records;
mod refusals;
mod spans;
mod why;

use crate::field::{Field, Settings};
pub use growth::{GaveBack, Stop};
pub use mistake::Mistake;
use spans::Spans;
pub use why::{Reason, Reasons};

/// The bit that tells a painted id.
const FLAG: u16 = 0x8000;

fn is_flagged(id: u16) -> bool {
    id & FLAG != 0
}

/// An id of a region that was flooded: neither 0 nor flagged.
fn is_grown(id: u16) -> bool {
    id != 0 && !is_flagged(id)
}

/// The rules, right or with one mistake.
#[derive(Debug, Clone, Copy)]
pub struct Model {
    mistake: Option<Mistake>,
}

/// What the distance entry gives.
#[derive(Debug, Clone, PartialEq, Eq)]
pub struct Distances {
    /// The distance of each span before the blur.
    pub raw: Vec<u16>,
    /// The distance of each span after the blur.
    pub blurred: Vec<u16>,
    /// The greatest raw distance.
    pub max_distance: u16,
}

/// What the region entry gives.
#[derive(Debug, Clone, PartialEq, Eq)]
pub struct Regions {
    /// The region of each span.
    pub ids: Vec<u16>,
    /// The last number given.
    pub max_region: u16,
    /// How many records have overlap set.
    pub overlaps: usize,
    /// How many records bear the mark of a contour cut short (request A8).
    pub cut: usize,
}

impl Model {
    /// The rules as they are.
    pub const RIGHT: Self = Self { mistake: None };

    /// The rules with one mistake.
    pub const fn with(mistake: Mistake) -> Self {
        Self {
            mistake: Some(mistake),
        }
    }

    fn has(&self, mistake: Mistake) -> bool {
        self.mistake == Some(mistake)
    }

    /// The distance entry on a field that is not refused.
    pub fn distances(self, field: &Field) -> Distances {
        distance::distances(self, &Spans::new(self, field))
    }

    /// The region entry, in the compared form, on a field, distances and a greatest distance that 1 to 8 let pass; or what stops growth.
    pub fn regions(
        self,
        field: &Field,
        distances: &[u16],
        max_distance: u16,
        settings: Settings,
    ) -> Result<Regions, Stop> {
        let spans = Spans::new(self, field);
        let grown = growth::grow(self, &spans, distances, max_distance, settings.border_size)?;
        let built = records::build(self, &spans, &grown);
        Ok(merge::finish(self, &spans, &grown, built, settings).0)
    }

    /// The reasons of a build of all spans (request A7), where 1 to 8 let the call pass; or what stops growth.
    pub fn reasons(
        self,
        field: &Field,
        distances: &[u16],
        max_distance: u16,
        settings: Settings,
    ) -> Result<Reasons, Stop> {
        let spans = Spans::new(self, field);
        let grown = growth::grow(self, &spans, distances, max_distance, settings.border_size)?;
        let built = records::build(self, &spans, &grown);
        let (regions, records) = merge::finish(self, &spans, &grown, built, settings);
        let areas = field.area.clone();
        Ok(Reasons::new(self, areas, grown, records, regions, settings))
    }

    /// What the program prints for a file.
    pub fn answer(self, file: &[u8]) -> String {
        self.listing(file, merge::dense)
            .unwrap_or_else(|number| format!("refused {number}\n"))
    }

    /// The same in the compared form, in which every mistake is judged: the dense form hides some.
    pub fn compared(self, file: &[u8]) -> String {
        self.listing(file, |regions| regions)
            .unwrap_or_else(|number| format!("refused {number}\n"))
    }

    fn listing(self, file: &[u8], form: fn(Regions) -> Regions) -> Result<String, u8> {
        let (field, settings) = file::read(self, file)?;
        refusals::field(self, &field)?;
        let Distances {
            blurred,
            max_distance,
            ..
        } = self.distances(&field);
        refusals::distances(&blurred, max_distance)?;
        let regions = self
            .regions(&field, &blurred, max_distance, settings)
            .map_err(|stop| stop as u8)?;
        let regions = form(regions);
        Ok(file::listing(self, &field, max_distance, &regions))
    }
}
