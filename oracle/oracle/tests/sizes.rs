//! Floor sizes: what document 02 says of them, on a drawn field and on fields by seed.

use oracle::{
    field::Field,
    levels::{KINDS, Size},
    plain,
    refusals::{Refusal, workspace_needed},
    sizes::{self, Room},
};

#[test]
fn a_drawn_field() {
    let mut field = Field::open(3, 2);
    field.area = vec![1, 0, 1, 1, 2, 1];
    let ids = [1, 0, 2, 1, 3, 2];
    let room = sizes::measure(&field, &ids, 3, 64, 2).expect("a sound field");
    assert_eq!(room.sizes, [2.0, 2.0, 3.0, 0.0, 2.0]);
    assert_eq!((room.area, room.count), (1, 2));
    let room = sizes::measure(&field, &ids, 3, 1, 3).expect("a sound field");
    assert_eq!(
        room.sizes,
        [1.0 / 4096.0, 1.0 / 64.0, 2.0 / 64.0, 1.0 / 64.0, 2.0 / 64.0]
    );
    for id in [0, 4, 0x8001, u16::MAX] {
        assert_eq!(sizes::measure(&field, &ids, 3, 64, id), Ok(Room::default()));
    }
}

#[test]
fn refusals_in_their_order() {
    let field = Field::open(3, 2);
    let ids = [1; 6];
    assert_eq!(
        sizes::measure(&field, &ids, 1, 0, 1),
        Err(Refusal::WrongScale)
    );
    assert_eq!(
        sizes::measure(&field, &ids, 1, 257, 1),
        Err(Refusal::WrongScale)
    );
    assert_eq!(
        sizes::measure(&field, &ids[1..], 1, 0, 1),
        Err(Refusal::WrongScale)
    );
    assert_eq!(
        sizes::measure(&field, &ids[1..], 1, 256, 1),
        Err(Refusal::WrongIds)
    );
    assert_eq!(
        sizes::measure(&field, &ids, 0, 256, 1),
        Err(Refusal::WrongIds)
    );
    assert!(sizes::measure(&field, &[0x8001; 6], 0, 256, 1).is_ok());
}

/// "The counts over all ids, plus spans of id 0, plus flagged spans, come to n."
#[test]
fn counts_come_to_n() {
    for kind in KINDS {
        for seed in 0..3 {
            let case = kind.make(Size::Small, seed);
            let n = case.field.spans();
            let rooms =
                plain::build(&case.field, 1, n, workspace_needed(n)).expect("a sound field");
            let others = rooms
                .ids
                .iter()
                .filter(|&&id| id == 0 || id >= 0x8000)
                .count();
            let counted: usize = (1..=rooms.max_region)
                .map(|id| sizes::measure(&case.field, &rooms.ids, rooms.max_region, 20, id))
                .map(|room| usize::from(room.expect("a sound field").count))
                .sum();
            assert_eq!(counted + others, n);
        }
    }
}
