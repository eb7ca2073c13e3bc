//! The two entries, answered by the unchanged Rust.

use crate::{
    field::{Field, Settings},
    model::{self, Model, Stop},
    refusals::{self, Refusal},
};
use rerecast::{AreaType, CompactCell, CompactHeightfield, CompactSpan, RegionId};

/// What the distance entry gives.
#[derive(Debug, Clone, PartialEq, Eq)]
pub struct Distances {
    /// The distance of each span before the blur.
    pub raw: Vec<u16>,
    /// The distance of each span after the blur.
    pub blurred: Vec<u16>,
    /// The greatest raw distance.
    pub max_distance: u16,
}

/// What the region entry gives.
#[derive(Debug, Clone, PartialEq, Eq)]
pub struct Regions {
    /// The region of each span.
    pub ids: Vec<u16>,
    /// The last number given.
    pub max_region: u16,
    /// How many records have overlap set.
    pub overlaps: usize,
    /// How many records bear the mark of a contour cut short (request A8).
    pub cut: usize,
}

/// The distance entry.
pub fn distances(field: &Field) -> Result<Distances, Refusal> {
    refusals::distance_entry(field, field.spans(), field.spans())?;
    let mut heightfield = heightfield(field);
    let raw = heightfield.raw_distances();
    heightfield.build_distance_field();
    Ok(Distances {
        raw,
        blurred: heightfield.dist,
        max_distance: heightfield.max_distance,
    })
}

/// The region entry in the compared form, with a workspace that is long enough. The distances may be any that it takes, not only those of
/// the distance entry.
pub fn regions(
    field: &Field,
    distances: &[u16],
    max_distance: u16,
    settings: Settings,
) -> Result<Regions, Refusal> {
    let workspace_len = refusals::workspace_needed(field.spans());
    refusals::region_entry(field, distances, max_distance, field.spans(), workspace_len)?;
    // The unchanged Rust overflows where 12 and 13 are given, so the model is asked first.
    let modelled = Model::RIGHT
        .regions(field, distances, max_distance, settings)
        .map_err(|stop| match stop {
            Stop::Ids => Refusal::IdsRunOut,
            Stop::Sum => Refusal::SumTooGreat,
        })?;
    let (ids, max_region, overlaps) = unguarded(field, distances, max_distance, settings);
    Ok(Regions {
        max_region,
        overlaps,
        cut: cut(&modelled, &ids),
        ids,
    })
}

/// The ids, the last number given and the overlap count of the unchanged Rust, which is asked whatever the model says:
/// with overflow checks it panics where refusal 13 is given.
pub fn unguarded(
    field: &Field,
    distances: &[u16],
    max_distance: u16,
    settings: Settings,
) -> (Vec<u16>, u16, usize) {
    let mut heightfield = heightfield(field);
    heightfield.dist = distances.to_vec();
    heightfield.max_distance = max_distance;
    tracing::take_len();
    heightfield
        .build_regions(
            settings.border_size,
            settings.least_area,
            settings.merge_area,
        )
        .expect("65,000 spans give no 65,535 ids");
    let ids = heightfield
        .spans
        .iter()
        .map(|span| span.region.bits())
        .collect();
    (
        ids,
        heightfield.max_region.bits(),
        tracing::take_len().unwrap_or(0),
    )
}

/// The number that the unchanged Rust does not tell: how many contours were cut short. The model walked them again; it
/// counts only where its ids are the Rust's.
fn cut(modelled: &model::Regions, ids: &[u16]) -> usize {
    assert_eq!(modelled.ids, ids, "the model and the unchanged Rust differ");
    modelled.cut
}

impl Regions {
    /// The dense form (request A4): ids in use become 1, 2, .. in the order of their numbers; flagged ids and 0 stay.
    pub fn dense(mut self) -> Self {
        let mut used: Vec<_> = (self.ids.iter().copied())
            .filter(|&id| id != 0 && id & 0x8000 == 0)
            .collect();
        used.sort_unstable();
        used.dedup();
        for id in &mut self.ids {
            if let Ok(place) = used.binary_search(id) {
                *id = place as u16 + 1;
            }
        }
        self.max_region = used.len() as u16;
        self
    }
}

/// Both entries in turn, in the dense form.
pub fn both(field: &Field, settings: Settings) -> Result<(Distances, Regions), Refusal> {
    both_compared(field, settings).map(|(distances, regions)| (distances, regions.dense()))
}

/// Both entries in turn, in the compared form.
pub fn both_compared(field: &Field, settings: Settings) -> Result<(Distances, Regions), Refusal> {
    let distances = distances(field)?;
    let regions = regions(field, &distances.blurred, distances.max_distance, settings)?;
    Ok((distances, regions))
}

fn heightfield(field: &Field) -> CompactHeightfield {
    let cell = |(&index, &count)| CompactCell::new(index, count);
    CompactHeightfield {
        width: field.w,
        height: field.h,
        border_size: 0,
        max_distance: 0,
        max_region: RegionId::NONE,
        cells: field.index.iter().zip(&field.count).map(cell).collect(),
        spans: field
            .con
            .as_chunks()
            .0
            .iter()
            .map(|&con| CompactSpan::new(con))
            .collect(),
        dist: Vec::new(),
        areas: field.area.iter().map(|&area| AreaType(area)).collect(),
    }
}
