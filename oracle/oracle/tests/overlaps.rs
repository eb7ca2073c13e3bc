//! The overlap count, which the unchanged Rust only reports.

use oracle::{
    field::{Field, Settings},
    run::{self, Regions},
};

/// A path once around 2 by 2 cells that ends above its start.
fn winding() -> Field {
    let con = [
        [255, 255, 0, 255], // (0,0), layer 0: on to (1,0)
        [255, 0, 255, 255], // (0,0), layer 1: the end
        [0, 0, 255, 255],   // (1,0)
        [255, 255, 0, 1],   // (0,1): on to the end
        [0, 255, 255, 0],   // (1,1)
    ];
    Field {
        w: 2,
        h: 2,
        index: vec![0, 2, 3, 4],
        count: vec![2, 1, 1, 1],
        area: vec![1; 5],
        con: con.concat(),
    }
}

/// Distances that let one flood run over the whole path.
const DISTANCES: [u16; 5] = [2; 5];

fn regions(field: &Field, least_area: u16) -> Regions {
    let settings = Settings {
        least_area,
        ..Settings::default()
    };
    run::regions(field, &DISTANCES[..field.spans()], 2, settings).expect("a sound field")
}

#[test]
fn region_above_itself_counts() {
    assert_eq!(
        regions(&winding(), 0),
        Regions {
            ids: vec![1; 5],
            max_region: 2,
            overlaps: 1,
            cut: 0
        }
    );
}

#[test]
fn removed_region_counts() {
    assert_eq!(
        regions(&winding(), 6),
        Regions {
            ids: vec![0; 5],
            max_region: 1,
            overlaps: 1,
            cut: 0
        }
    );
}

#[test]
fn count_is_of_one_run_alone() {
    assert_eq!(regions(&winding(), 0).overlaps, 1);
    assert_eq!(regions(&Field::open(2, 2), 0).overlaps, 0);
}
