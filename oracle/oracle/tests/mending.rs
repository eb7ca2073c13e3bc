//! The mending of hand-edited fields: what document 02 says of it, on drawn fields and on fields by seed.

use oracle::{
    field::Field,
    levels::{KINDS, Size},
    mending::{self, Change, Mended},
    refusals::{self, Refusal},
    rng::Rng,
};

const ENOUGH: usize = usize::MAX;

/// The field with other connections.
fn with_con(field: &Field, con: Vec<u8>) -> Field {
    Field {
        con,
        ..field.clone()
    }
}

fn change(span: usize, direction: usize, layer: u8) -> Change {
    Change {
        span,
        direction,
        layer,
    }
}

/// The open field of 3 by 3, edited: span 0 leads out of the grid and no more to span 1, span 4 to a layer that span 5's cell lacks.
fn edited() -> Field {
    let mut field = Field::open(3, 3);
    field.con[0] = 3;
    field.con[2] = 255;
    field.con[4 * 4 + 2] = 1;
    field
}

#[test]
fn a_drawn_field() {
    let mut con = edited().con;
    for place in [0, 4, 4 * 4 + 2, 4 * 5] {
        con[place] = 255;
    }
    // span 1 is no more answered by span 0, nor span 5 by span 4
    let changes = vec![
        change(0, 0, 3),
        change(1, 0, 0),
        change(4, 2, 1),
        change(5, 0, 0),
    ];
    let mended = Mended { con, changes };
    assert_eq!(mending::mend(&edited(), 4), Ok(mended.clone()));
    assert_eq!(mended.numbers(), [0, 0, 3, 1, 0, 0, 4, 2, 1, 5, 0, 0]);
}

#[test]
fn room_decides() {
    assert_eq!(mending::mend(&edited(), 3), Err(Refusal::NoRoom));
    assert_eq!(mending::mend(&edited(), 0), Err(Refusal::NoRoom));
    assert!(mending::mend(&edited(), 5).is_ok());
}

#[test]
fn the_refusals_before_come_first() {
    let wide = Field { w: 257, ..edited() };
    assert_eq!(mending::mend(&wide, 0), Err(Refusal::GridTooLarge));
    let short = with_con(&edited(), vec![0; 35]);
    assert_eq!(mending::mend(&short, 0), Err(Refusal::WrongLength));
    let mut high = edited();
    high.count[0] = 64;
    assert_eq!(mending::mend(&high, 0), Err(Refusal::WrongCells));
    let mut many = edited();
    many.area = vec![1; 65_001];
    assert_eq!(mending::mend(&many, 0), Err(Refusal::TooManySpans));
}

/// A layer that two connections name from one side: only the one that is answered stays.
#[test]
fn one_of_two_that_name_a_span_stays() {
    let field = Field {
        w: 2,
        h: 1,
        index: vec![0, 2],
        count: vec![2, 1],
        area: vec![1; 3],
        con: [[255, 255, 0, 255], [255, 255, 0, 255], [1, 255, 255, 255]].concat(),
    };
    let mended = mending::mend(&field, ENOUGH).expect("cells in order");
    assert_eq!(mended.changes, [change(0, 2, 0)]);
}

#[test]
fn sound_fields_stay_and_mended_ones_pass() {
    let mut rng = Rng::new(11);
    for kind in &KINDS {
        for seed in 0..40 {
            let field = kind.make(Size::Small, seed).field;
            let n = field.spans();
            let same = mending::mend(&field, 0).expect("a sound field");
            assert_eq!(same.con, field.con);
            let mut con = field.con.clone();
            for _ in 0..con.len().min(6) {
                let place = rng.within(0..=con.len() - 1);
                con[place] = rng.pick(&[0, 1, 2, 62, 254, 255]);
            }
            let edited = with_con(&field, con);
            let mended = mending::mend(&edited, ENOUGH).expect("cells in order");
            let passes = with_con(&field, mended.con.clone());
            assert_eq!(refusals::distance_entry(&passes, n, n), Ok(()));
            let again = mending::mend(&passes, 0).expect("nothing to change");
            assert_eq!(again.con, mended.con);
        }
    }
}
