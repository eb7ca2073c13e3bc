//! The bytes of listings.

use oracle::{
    field::{Case, Field, Settings},
    file::{self, Limits},
    listing,
    run::Regions,
};

fn answer(field: Field, settings: Settings) -> String {
    listing::answer(&file::write(&Case { field, settings }), Limits::PROGRAM)
}

#[test]
fn example_of_document_01() {
    let text = "max_distance 2 max_region 1 overlaps 0 cut 0\n1 1 1\n1 1 1\n1 1 1\n";
    assert_eq!(answer(Field::open(3, 3), Settings::default()), text);
}

#[test]
fn rows_without_cells_are_empty_lines() {
    let numbers = "max_distance 0 max_region 0 overlaps 0 cut 0\n";
    assert_eq!(
        answer(Field::open(0, 3), Settings::default()),
        format!("{numbers}\n\n\n")
    );
    assert_eq!(answer(Field::open(3, 0), Settings::default()), numbers);
    assert_eq!(answer(Field::open(0, 0), Settings::default()), numbers);
}

#[test]
fn flagged_ids_are_decimal() {
    let settings = Settings {
        border_size: 1,
        ..Settings::default()
    };
    let text = "max_distance 0 max_region 0 overlaps 0 cut 0\n32771 32771\n32772 32772\n";
    assert_eq!(answer(Field::open(2, 2), settings), text);
}

#[test]
fn layers_are_joined_and_empty_cells_marked() {
    let field = Field {
        w: 3,
        h: 2,
        index: vec![0, 3, 3, 4, 6, 6],
        count: vec![3, 0, 1, 2, 0, 0],
        area: vec![1; 6],
        con: vec![255; 24],
    };
    let regions = Regions {
        ids: vec![1, 0, 32_769, 4, 5, 6],
        max_region: 7,
        overlaps: 2,
        cut: 0,
    };
    let text = "max_distance 9 max_region 7 overlaps 2 cut 0\n1/0/32769 - 4\n5/6 - -\n";
    assert_eq!(listing::listing(&field, 9, &regions), text);
}

/// Two open floors of 3 by 3, one above the other: two regions, no overlap.
#[test]
fn two_floors() {
    let floor = Field::open(3, 3);
    let con = floor.con.as_chunks::<4>().0;
    let upper = |side: u8| if side == 0 { 1 } else { 255 };
    let field = Field {
        index: (0..9).map(|cell| 2 * cell).collect(),
        count: vec![2; 9],
        area: vec![1; 18],
        con: con
            .iter()
            .flat_map(|lower| [*lower, lower.map(upper)])
            .flatten()
            .collect(),
        ..floor
    };
    let text =
        "max_distance 2 max_region 2 overlaps 0 cut 0\n1/2 1/2 1/2\n1/2 1/2 1/2\n1/2 1/2 1/2\n";
    assert_eq!(answer(field, Settings::default()), text);
}
