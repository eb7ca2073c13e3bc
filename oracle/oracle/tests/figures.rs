//! The figures of document 01, "Figures at the edges", which are those of the compared form; and request A4's of the dense form.

use oracle::{
    field::{Field, Settings},
    levels::edges,
    refusals::{self, Refusal, workspace_needed},
    run::{self, Distances, Regions},
};

const FLAG: u16 = 0x8000;

fn border(border_size: u16) -> Settings {
    Settings {
        border_size,
        ..Settings::default()
    }
}

fn both(field: &Field, settings: Settings) -> (Distances, Regions) {
    run::both_compared(field, settings).expect("the figures are of fields that are not refused")
}

/// One cell of so many layers.
fn one_cell(count: u8) -> Field {
    let spans = usize::from(count);
    Field {
        w: 1,
        h: 1,
        index: vec![0],
        count: vec![count],
        area: vec![1; spans],
        con: vec![255; 4 * spans],
    }
}

#[test]
fn empty_field() {
    for (settings, max_region) in [(border(0), 1), (border(1), 5)] {
        let (distances, regions) = both(&Field::open(0, 0), settings);
        assert_eq!(
            distances,
            Distances {
                raw: vec![],
                blurred: vec![],
                max_distance: 0
            }
        );
        assert_eq!(
            regions,
            Regions {
                ids: vec![],
                max_region,
                overlaps: 0,
                cut: 0
            }
        );
    }
}

/// Request A4: ids in use run from 1 to max_region, which is 0 where none is.
#[test]
fn dense_form() {
    let most = |field: Field, settings| {
        let (_, regions) = run::both(&field, settings).expect("a sound field");
        let used = |&id: &u16| id != 0 && id < FLAG;
        (
            regions.ids.into_iter().find(used).unwrap_or(0),
            regions.max_region,
        )
    };
    assert_eq!(most(Field::open(3, 3), border(0)), (1, 1));
    assert_eq!(most(Field::open(5, 5), border(1)), (1, 1));
    for (size, settings) in [
        (0, border(0)),
        (0, border(1)),
        (1, border(0)),
        (1, border(1)),
    ] {
        assert_eq!(most(Field::open(size, size), settings), (0, 0));
    }
}

#[test]
fn open_1_by_1() {
    for (settings, id, max_region) in [(border(0), 0, 1), (border(1), FLAG + 4, 5)] {
        let (_, regions) = both(&Field::open(1, 1), settings);
        assert_eq!(
            regions,
            Regions {
                ids: vec![id],
                max_region,
                overlaps: 0,
                cut: 0
            }
        );
    }
}

#[test]
fn open_3_by_3() {
    for (least_area, id, max_region) in [(0, 1, 2), (9, 1, 2), (10, 0, 1)] {
        let (distances, regions) = both(
            &Field::open(3, 3),
            Settings {
                least_area,
                ..Settings::default()
            },
        );
        let middle = vec![0, 0, 0, 0, 2, 0, 0, 0, 0];
        assert_eq!(
            distances,
            Distances {
                raw: middle.clone(),
                blurred: middle,
                max_distance: 2
            }
        );
        assert_eq!(
            regions,
            Regions {
                ids: vec![id; 9],
                max_region,
                overlaps: 0,
                cut: 0
            }
        );
    }
}

#[test]
fn area_0_3_by_3() {
    let mut field = Field::open(3, 3);
    field.area.fill(0);
    let (distances, regions) = both(&field, Settings::default());
    assert_eq!(distances.raw[4], 2);
    assert_eq!(distances.blurred[4], 2);
    assert_eq!(
        regions,
        Regions {
            ids: vec![0; 9],
            max_region: 1,
            overlaps: 0,
            cut: 0
        }
    );
}

#[test]
fn open_5_by_5() {
    let field = Field::open(5, 5);
    let distances = run::distances(&field).unwrap();
    assert_eq!(distances.max_distance, 4);
    assert_eq!(distances.raw[field.cell_at(2, 2)], 4);
    assert_eq!(distances.blurred[field.cell_at(2, 2)], 2);
}

#[test]
fn open_7_by_7() {
    let field = Field::open(7, 7);
    let distances = run::distances(&field).unwrap();
    assert_eq!(distances.max_distance, 6);
    let blurred = [((3, 3), 4), ((2, 2), 3), ((2, 3), 4)];
    for ((x, z), distance) in blurred {
        assert_eq!(
            distances.blurred[field.cell_at(x, z)],
            distance,
            "({x},{z})"
        );
    }
}

/// The span (2,3), which has a flagged corner, is among the inner nine: expansion fills it.
#[test]
fn open_5_by_5_with_border() {
    let (_, regions) = both(&Field::open(5, 5), border(1));
    let (left, right, low, high) = (FLAG + 1, FLAG + 2, FLAG + 3, FLAG + 4);
    #[rustfmt::skip]
    let ids = vec![
        low,  low,  low,  low,  low,
        left, 5,    5,    5,    right,
        left, 5,    5,    5,    right,
        left, 5,    5,    5,    right,
        high, high, high, high, high,
    ];
    assert_eq!(
        regions,
        Regions {
            ids,
            max_region: 6,
            overlaps: 0,
            cut: 0
        }
    );
}

#[test]
fn two_areas_6_by_3() {
    let mut field = Field::open(6, 3);
    for (cell, area) in field.area.iter_mut().enumerate() {
        *area = if cell % 6 < 3 { 1 } else { 2 };
    }
    let (_, regions) = both(
        &field,
        Settings {
            merge_area: 20,
            ..Settings::default()
        },
    );
    let ids = [1, 1, 1, 2, 2, 2].repeat(3);
    assert_eq!(
        regions,
        Regions {
            ids,
            max_region: 3,
            overlaps: 0,
            cut: 0
        }
    );
}

#[test]
fn spans_at_the_limit() {
    let field = Field::open(250, 128);
    assert_eq!(field.spans(), 32_000);
    let (distances, regions) = both(&field, Settings::default());
    assert_eq!(distances.max_distance, 126);
    assert_eq!(regions.ids, vec![1; 32_000]);
}

#[test]
fn spans_past_the_limit() {
    let mut field = edges::apart(65_000);
    assert_eq!(run::distances(&field).err(), None);
    // One more span, in the cell after the last that has one.
    field.count[65_000] = 1;
    field.area.push(1);
    field.con.extend([255; 4]);
    assert_eq!(field.spans(), 65_001);
    assert_eq!(run::distances(&field), Err(Refusal::TooManySpans));
    assert_eq!(
        run::regions(&field, &[0; 65_001], 0, Settings::default()),
        Err(Refusal::TooManySpans)
    );
}

#[test]
fn sides_at_the_limit_and_past_it() {
    for (w, h, refusal) in [
        (256, 1, None),
        (1, 256, None),
        (257, 1, Some(Refusal::GridTooLarge)),
        (1, 257, Some(Refusal::GridTooLarge)),
        (257, 0, Some(Refusal::GridTooLarge)),
    ] {
        assert_eq!(
            run::both(&Field::open(w, h), Settings::default()).err(),
            refusal,
            "{w} by {h}"
        );
    }
}

#[test]
fn counts_at_the_limit_and_past_it() {
    for (count, refusal) in [(63, None), (64, Some(Refusal::WrongCells))] {
        assert_eq!(
            run::both(&one_cell(count), Settings::default()).err(),
            refusal,
            "{count}"
        );
    }
}

#[test]
fn max_distance_at_the_limit_and_past_it() {
    let field = Field::open(3, 3);
    for (max_distance, refusal) in [(510, None), (511, Some(Refusal::DistanceTooGreat))] {
        let distances = [max_distance; 9];
        assert_eq!(
            run::regions(&field, &distances, max_distance, Settings::default()).err(),
            refusal
        );
    }
}

#[test]
fn workspace_at_the_limit_and_past_it() {
    let field = Field::open(3, 3);
    assert_eq!(workspace_needed(9), 128 * 9 + 4_096);
    for (workspace_len, answer) in [(5_248, Ok(())), (5_247, Err(Refusal::WorkspaceTooShort))] {
        assert_eq!(
            refusals::region_entry(&field, &[0; 9], 0, 9, workspace_len),
            answer
        );
    }
}
