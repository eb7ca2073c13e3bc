//! Small fields in which a mistake that is easy to make changes the answer.

use oracle::{
    field::{Case, Field, Settings},
    file::{self, Limits},
    listing,
};

fn answer_with_border(field: Field) -> String {
    let settings = Settings {
        border_size: 1,
        ..Settings::default()
    };
    listing::answer(&file::write(&Case { field, settings }), Limits::PROGRAM)
}

/// The first span in the scan has a flagged corner beyond the middle of a cross, so its flood fails. The span above it,
/// on its own, gets the same number next (5); the middle, whose first neighbour is flagged, gets 6, and expansion
/// gives that to the first span.
///
/// The first span would be 5 if a flagged corner passed, and there would be one number more if a failed flood took one.
/// Without the empty records the numbers would be 1 and 2.
#[test]
fn flagged_corner_objects_and_a_failed_flood_takes_no_number() {
    let con = [
        [255, 0, 255, 255], // (1,1), layer 0: on to the middle
        [255; 4],           // (1,1), layer 1
        [255, 255, 0, 255], // (0,2)
        [0, 0, 0, 0],       // (1,2): the middle
        [0, 255, 255, 255], // (2,2)
        [255, 255, 255, 0], // (1,3)
    ];
    let field = Field {
        w: 3,
        h: 4,
        index: vec![0, 0, 0, 0, 0, 2, 2, 3, 4, 5, 5, 6],
        count: vec![0, 0, 0, 0, 2, 0, 1, 1, 1, 0, 1, 0],
        area: vec![1; 6],
        con: con.concat(),
    };
    let text = "\
max_distance 2 max_region 2 overlaps 0 cut 0
- - -
- 2/1 -
32769 2 32770
- 32772 -
";
    assert_eq!(answer_with_border(field), text);
}

/// The first span that is not painted has a flagged neighbour on its left and a flagged corner on its right. The
/// neighbour ends the looking, so its flood succeeds and it gets 5. It would be 6 if the looking went on.
#[test]
fn flagged_neighbour_ends_the_looking() {
    let con = [
        [255, 0, 255, 255], // (2,0)
        [255, 255, 0, 255], // (0,1)
        [0, 255, 0, 255],   // (1,1), layer 0
        [255; 4],           // (1,1), layer 1
        [0, 0, 0, 0],       // (2,1): the middle
        [0, 255, 255, 255], // (3,1)
        [255, 255, 255, 0], // (2,2)
    ];
    let field = Field {
        w: 5,
        h: 4,
        index: vec![0, 0, 0, 1, 1, 1, 2, 4, 5, 6, 6, 6, 6, 7, 7, 7, 7, 7, 7, 7],
        count: vec![0, 0, 1, 0, 0, 1, 2, 1, 1, 0, 0, 0, 1, 0, 0, 0, 0, 0, 0, 0],
        area: vec![1; 7],
        con: con.concat(),
    };
    let text = "\
max_distance 2 max_region 2 overlaps 0 cut 0
- - 32771 - -
32769 1/2 1 1 -
- - 1 - -
- - - - -
";
    assert_eq!(answer_with_border(field), text);
}
