//! Moving over from rerecast: the same heightfield through the unchanged Rust and through `Watershed`, every field of it compared.
#![cfg(feature = "alloc")]

use gussetraft::{rerecast::Watershed, Refusal, Sizes};
use oracle::{
    damage::DAMAGES,
    field::{Case, Field},
    file::{self, Limits},
    levels::{Size, KINDS},
    refusals,
};
use rerecast::{AreaType, CompactCell, CompactHeightfield, CompactSpan, RegionId};

fn heightfield(field: &Field) -> CompactHeightfield {
    let cell = |(&index, &count)| CompactCell::new(index, count);
    let span = |con: &[u8]| CompactSpan::new(con.try_into().expect("four connections"));
    CompactHeightfield {
        width: field.w,
        height: field.h,
        border_size: 0,
        max_distance: 0,
        max_region: RegionId::NONE,
        cells: field.index.iter().zip(&field.count).map(cell).collect(),
        spans: field.con.chunks(4).map(span).collect(),
        dist: Vec::new(),
        areas: field.area.iter().map(|&area| AreaType(area)).collect(),
    }
}

/// In the place of `heightfield.build_distance_field()` and `heightfield.build_regions(..)`, as docs/RERECAST.md has it.
fn build(
    watershed: &mut Watershed,
    heightfield: &mut CompactHeightfield,
    sizes: &Sizes,
) -> Result<(), Refusal> {
    let built = watershed.build(
        heightfield.width,
        heightfield.height,
        (heightfield.cells.iter()).map(|cell| (cell.index(), cell.count())),
        (heightfield.spans.iter()).map(|span| [0, 1, 2, 3].map(|dir| span.con(dir))),
        heightfield.areas.iter().map(|area| area.0),
        sizes,
    )?;
    heightfield.dist = built.distances.to_vec();
    heightfield.max_distance = built.max_distance;
    heightfield.max_region = RegionId::from(built.max_region);
    heightfield.border_size = sizes.border_size;
    for (span, &region) in heightfield.spans.iter_mut().zip(built.regions) {
        span.region = RegionId::from(region);
    }
    Ok(())
}

fn sizes(case: &Case) -> Sizes {
    Sizes {
        border_size: case.settings.border_size,
        min_region_area: case.settings.least_area,
        merge_region_area: case.settings.merge_area,
    }
}

/// All that either writes.
fn written(heightfield: &CompactHeightfield) -> (u16, u16, RegionId, Vec<u16>, Vec<RegionId>) {
    (
        heightfield.border_size,
        heightfield.max_distance,
        heightfield.max_region,
        heightfield.dist.clone(),
        heightfield.spans.iter().map(|span| span.region).collect(),
    )
}

fn check(watershed: &mut Watershed, name: &str, case: &Case) {
    let sizes = sizes(case);
    let mut theirs = heightfield(&case.field);
    theirs.build_distance_field();
    let regions = theirs.build_regions(
        sizes.border_size,
        sizes.min_region_area,
        sizes.merge_region_area,
    );
    assert!(regions.is_ok(), "{name}: rerecast failed");
    let mut ours = heightfield(&case.field);
    assert_eq!(build(watershed, &mut ours, &sizes), Ok(()), "{name}");
    assert!(
        written(&ours) == written(&theirs),
        "{name}: not what rerecast writes"
    );
}

#[test]
fn heightfields_of_every_kind() {
    // one for all, larger and smaller ones in turn, so that what an earlier one left would show
    let mut watershed = Watershed::new();
    for kind in &KINDS {
        for seed in 0..60 {
            let name = format!("small {} {seed}", kind.name);
            check(&mut watershed, &name, &kind.make(Size::Small, seed));
            if seed % 20 == 7 {
                let name = format!("medium {} {seed}", kind.name);
                check(&mut watershed, &name, &kind.make(Size::Medium, seed));
            }
        }
    }
}

#[test]
fn what_is_refused_changes_nothing() {
    let mut watershed = Watershed::new();
    let mut refused = 0;
    for damage in &DAMAGES {
        for seed in 0..20 {
            // files that are malformed have no heightfield
            let Ok(case) = file::read(&damage.make(seed), Limits::FORMAT) else {
                continue;
            };
            let n = case.field.spans();
            let Err(expected) = refusals::distance_entry(&case.field, n, n) else {
                continue;
            };
            let mut heightfield = heightfield(&case.field);
            let before = written(&heightfield);
            let answer = build(&mut watershed, &mut heightfield, &sizes(&case));
            let number = answer.map_err(Refusal::number);
            assert_eq!(number, Err(expected as u16), "{} {seed}", damage.name);
            assert!(written(&heightfield) == before, "{} {seed}", damage.name);
            refused += 1;
        }
    }
    assert!(refused >= 80, "only {refused} heightfields were refused");
}

#[test]
fn lengths_and_layer_255() {
    let mut watershed = Watershed::new();
    let none = [None; 4];
    let sizes = Sizes::default();
    let mut build = |cells: &[(u32, u8)], spans: &[[Option<u8>; 4]], areas: &[u8]| {
        let areas = areas.iter().copied();
        let built = watershed.build(2, 1, cells.to_vec(), spans.to_vec(), areas, &sizes);
        built.map(|built| built.max_region)
    };
    let cells = [(0, 1), (1, 1)];
    assert_eq!(build(&cells, &[none, none], &[1, 1]), Ok(1));
    assert_eq!(build(&cells[..1], &[none], &[1]), Err(Refusal::WrongLength));
    assert_eq!(build(&cells, &[none], &[1, 1]), Err(Refusal::WrongLength));
    // a connection to layer 255 is one to a layer that is not there, and not none
    for layer in [1, 254, 255] {
        let astray = [None, None, Some(layer), None];
        assert_eq!(
            build(&cells, &[astray, none], &[1, 1]),
            Err(Refusal::WrongReach)
        );
    }
}
