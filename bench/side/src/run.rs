//! One call of an entry of each library, in a function of its own for the counter to see. Levels and answers are made outside.

use gussetraft::{Refusal, Regions, Sizes, build_distance_field, build_regions, workspace_len};
use oracle::field::{Case, Field};
use rerecast::{AreaType, CompactCell, CompactHeightfield, CompactSpan, RegionId};

/// Which entries to run.
#[derive(Debug, Clone, Copy, PartialEq, Eq)]
pub enum Entries {
    /// The distance entry alone.
    Distance,
    /// The distance entry, and then the region entry.
    Both,
}

/// What the entries answer.
#[derive(Debug, Clone, Default, PartialEq, Eq)]
pub struct Answer {
    /// The greatest raw distance.
    pub max_distance: u16,
    /// The blurred distances.
    pub distances: Vec<u16>,
    /// What the region entry answers, if it was run.
    pub regions: Option<Ids>,
}

/// What the region entry answers.
#[derive(Debug, Clone, Default, PartialEq, Eq)]
pub struct Ids {
    /// The last number given.
    pub max_region: u16,
    /// The ids.
    pub ids: Vec<u16>,
}

impl Answer {
    /// The same in the dense form: ids in use become 1, 2, .. in the order of their numbers.
    pub fn dense(mut self) -> Self {
        if let Some(regions) = &mut self.regions {
            let mut used: Vec<u16> = (regions.ids.iter().copied())
                .filter(|&id| id != 0 && id & 0x8000 == 0)
                .collect();
            used.sort_unstable();
            used.dedup();
            for id in &mut regions.ids {
                if let Ok(place) = used.binary_search(id) {
                    *id = place as u16 + 1;
                }
            }
            regions.max_region = used.len() as u16;
        }
        self
    }
}

/// Gussetraft's distance entry.
#[unsafe(no_mangle)]
#[inline(never)]
pub fn side_gussetraft_distance(
    field: &gussetraft::Field,
    raw: &mut [u16],
    blurred: &mut [u16],
) -> Result<u16, Refusal> {
    build_distance_field(field, raw, blurred)
}

/// Gussetraft's region entry.
#[unsafe(no_mangle)]
#[inline(never)]
pub fn side_gussetraft_regions(
    field: &gussetraft::Field,
    distances: &[u16],
    max_distance: u16,
    sizes: &Sizes,
    workspace: &mut [u16],
    ids: &mut [u16],
) -> Result<Regions, Refusal> {
    build_regions(field, distances, max_distance, sizes, workspace, ids)
}

/// The checks that the distance entry makes. Its max_distance is not that of the function below, so that the compiler does not make one
/// function of the two, which the counter could not tell apart.
#[unsafe(no_mangle)]
#[inline(never)]
pub fn side_checker_distance(
    field: &gussetraft::Field,
    distances: &[u16],
    sizes: &Sizes,
    short: &mut [u16],
    ids: &mut [u16],
) -> Result<Regions, Refusal> {
    build_regions(field, distances, 1, sizes, short, ids)
}

/// The checks that the region entry makes.
#[unsafe(no_mangle)]
#[inline(never)]
pub fn side_checker_regions(
    field: &gussetraft::Field,
    distances: &[u16],
    sizes: &Sizes,
    workspace: &mut [u16],
    ids: &mut [u16],
) -> Result<Regions, Refusal> {
    build_regions(field, distances, 0, sizes, workspace, ids)
}

/// The unchanged Rust's distances.
#[unsafe(no_mangle)]
#[inline(never)]
pub fn side_rust_distance(heightfield: &mut CompactHeightfield) {
    heightfield.build_distance_field();
}

/// The unchanged Rust's regions.
#[unsafe(no_mangle)]
#[inline(never)]
pub fn side_rust_regions(heightfield: &mut CompactHeightfield, sizes: &Sizes) {
    heightfield
        .build_regions(
            sizes.border_size,
            sizes.min_region_area,
            sizes.merge_region_area,
        )
        .expect("ids don't run out");
}

pub(crate) fn lent(field: &Field) -> gussetraft::Field<'_> {
    gussetraft::Field {
        w: field.w,
        h: field.h,
        index: &field.index,
        count: &field.count,
        area: &field.area,
        con: &field.con,
    }
}

pub(crate) fn sizes(case: &Case) -> Sizes {
    Sizes {
        border_size: case.settings.border_size,
        min_region_area: case.settings.least_area,
        merge_region_area: case.settings.merge_area,
    }
}

/// Gussetraft's entries; `mark` is called before the first and after each.
pub fn gussetraft(case: &Case, entries: Entries, mark: impl Fn(u64)) -> Answer {
    let n = case.field.spans();
    let (field, sizes) = (lent(&case.field), sizes(case));
    let (mut raw, mut distances, mut ids) = (vec![1; n], vec![1; n], vec![1; n]);
    let mut workspace = vec![1; workspace_len(n)];
    mark(900);
    let max_distance =
        side_gussetraft_distance(&field, &mut raw, &mut distances).expect("a sound field");
    mark(1);
    let regions = (entries == Entries::Both).then(|| {
        let answer = side_gussetraft_regions(
            &field,
            &distances,
            max_distance,
            &sizes,
            &mut workspace,
            &mut ids,
        );
        mark(2);
        let max_region = answer.expect("a sound field").max_region;
        Ids { max_region, ids }
    });
    Answer {
        max_distance,
        distances,
        regions,
    }
}

/// Whether either entry of Gussetraft refuses a level.
pub fn refused(case: &Case) -> Option<Refusal> {
    let n = case.field.spans();
    let (field, sizes) = (lent(&case.field), sizes(case));
    let (mut raw, mut distances, mut ids) = (vec![0; n], vec![0; n], vec![0; n]);
    build_distance_field(&field, &mut raw, &mut distances)
        .and_then(|max_distance| {
            let mut workspace = vec![0; workspace_len(n)];
            build_regions(
                &field,
                &distances,
                max_distance,
                &sizes,
                &mut workspace,
                &mut ids,
            )
        })
        .err()
}

/// Gussetraft's region entry, refused at the last thing that a checker looks at: the workspace, which comes after all that the distance
/// entry refuses too (7), or the last distance, which comes after all that the region entry refuses (8). So each call is an entry's checks
/// and nothing else, on a field that passes them.
pub fn checker(case: &Case, entries: Entries, mark: impl Fn(u64)) {
    let n = case.field.spans();
    let (field, sizes) = (lent(&case.field), sizes(case));
    let mut ids = vec![1; n];
    let mut workspace = vec![1; workspace_len(n)];
    let mut far = vec![0; n];
    far[n - 1] = 1;
    let short = &mut workspace[1..];
    mark(900);
    let refused = side_checker_distance(&field, &far, &sizes, short, &mut ids);
    mark(1);
    assert_eq!(refused, Err(Refusal::TooShort));
    if entries == Entries::Both {
        mark(901);
        let refused = side_checker_regions(&field, &far, &sizes, &mut workspace, &mut ids);
        mark(2);
        assert_eq!(refused, Err(Refusal::TooFar));
    }
}

/// The unchanged Rust's entries.
pub fn rust(case: &Case, entries: Entries, mark: impl Fn(u64)) -> Answer {
    let (mut heightfield, sizes) = (heightfield(&case.field), sizes(case));
    mark(900);
    side_rust_distance(&mut heightfield);
    mark(1);
    let regions = (entries == Entries::Both).then(|| {
        side_rust_regions(&mut heightfield, &sizes);
        mark(2);
        Ids {
            max_region: heightfield.max_region.bits(),
            ids: heightfield
                .spans
                .iter()
                .map(|span| span.region.bits())
                .collect(),
        }
    });
    Answer {
        max_distance: heightfield.max_distance,
        distances: heightfield.dist,
        regions,
    }
}

pub(crate) fn heightfield(field: &Field) -> CompactHeightfield {
    let cell = |(&index, &count)| CompactCell::new(index, count);
    CompactHeightfield {
        width: field.w,
        height: field.h,
        border_size: 0,
        max_distance: 0,
        max_region: RegionId::NONE,
        cells: field.index.iter().zip(&field.count).map(cell).collect(),
        spans: field
            .con
            .as_chunks()
            .0
            .iter()
            .map(|&con| CompactSpan::new(con))
            .collect(),
        dist: Vec::new(),
        areas: field.area.iter().map(|&area| AreaType(area)).collect(),
    }
}
