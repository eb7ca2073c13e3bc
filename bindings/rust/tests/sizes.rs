//! Floor sizes held against the model of document 02: every size to the bit, refused or not.

use gussetraft::{measure_room, Refusal, Room};
use oracle::{
    field::Field,
    levels::{Size, KINDS},
    rng::Rng,
    sizes,
};

fn lent(field: &Field) -> gussetraft::Field<'_> {
    gussetraft::Field {
        w: field.w,
        h: field.h,
        index: &field.index,
        count: &field.count,
        area: &field.area,
        con: &field.con,
    }
}

fn check(field: &Field, ids: &[u16], most: u16, k: u16, id: u16) {
    let expected = match sizes::measure(field, ids, most, k, id) {
        Ok(room) => {
            let [floor, x_least, x_past, z_least, z_past] = room.sizes;
            let (area, count) = (room.area, room.count);
            Ok(Room {
                floor,
                x_least,
                x_past,
                z_least,
                z_past,
                area,
                count,
            })
        }
        Err(refusal) => Err(Refusal::from_number(refusal as u16).expect("a number")),
    };
    let answer = measure_room(&lent(field), ids, most, k, id);
    assert_eq!(answer, expected, "most {most}, k {k}, id {id}");
}

#[test]
fn small_fields_of_every_kind() {
    for kind in KINDS {
        for seed in 0..10 {
            let mut rng = Rng::new(seed);
            let field = kind.make(Size::Small, seed).field;
            let ids: Vec<u16> = (0..field.spans())
                .map(|_| rng.pick(&[0, 1, 2, 2, 3, 0x8001]))
                .collect();
            for id in [0, 1, 2, 3, 4, 0x8001, u16::MAX] {
                for (most, k) in [(3, 1), (3, 20), (5, 256), (2, 64), (3, 0), (3, 257)] {
                    check(&field, &ids, most, k, id);
                }
            }
        }
    }
}

#[test]
fn refused() {
    let field = Field::open(4, 4);
    check(&field, &[1; 15], 1, 64, 1);
    check(&field, &[2; 16], 1, 64, 1);
    let wide = Field {
        w: 257,
        ..field.clone()
    };
    check(&wide, &[1; 16], 1, 0, 1);
}
