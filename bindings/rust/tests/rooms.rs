//! Plain rooms held against the model of document 02: every number and every list, refused or not.

use gussetraft::{build_rooms, workspace_len, Refusal};
use oracle::{
    field::Field,
    levels::{edges, Size, KINDS},
    plain,
    rng::Rng,
};

fn lent(field: &Field) -> gussetraft::Field<'_> {
    gussetraft::Field {
        w: field.w,
        h: field.h,
        index: &field.index,
        count: &field.count,
        area: &field.area,
        con: &field.con,
    }
}

/// A list that is no answer: what a refused call must leave as it is, and what any other must write over.
fn scribbled(len: usize) -> Vec<u16> {
    (0..len).map(|place| (place * 40_503 + 7) as u16).collect()
}

fn check(name: &str, field: &Field, border: u16, workspace_len: usize, ids_len: usize) {
    let (work, held) = (scribbled(workspace_len), scribbled(ids_len));
    let (mut workspace, mut ids) = (work.clone(), held.clone());
    let answer = build_rooms(&lent(field), border, &mut workspace, &mut ids);
    match plain::build(field, border, ids_len, workspace_len) {
        Ok(rooms) => {
            assert_eq!(answer, Ok(rooms.max_region), "{name}");
            assert!(ids == rooms.ids, "{name}: ids");
            assert!(workspace.iter().all(|&x| x == 0), "{name}: workspace");
        }
        Err(refusal) => {
            let refusal = Refusal::from_number(refusal as u16).expect("a number of the function");
            assert_eq!(answer, Err(refusal), "{name}");
            assert!(ids == held, "{name}: ids of a refused call");
            let zeroed = refusal == Refusal::NoIds && workspace.iter().all(|&x| x == 0);
            assert!(zeroed || workspace == work, "{name}: workspace");
        }
    }
}

#[test]
fn small_fields_of_every_kind() {
    for kind in KINDS {
        for seed in 0..20 {
            let mut rng = Rng::new(seed);
            let mut field = kind.make(Size::Small, seed).field;
            for area in &mut field.area {
                *area = rng.pick(&[0, 1, 1, 1, 2]);
            }
            let n = field.spans();
            for border in [0, 1, 3, u16::MAX] {
                check("small", &field, border, workspace_len(n), n);
            }
        }
    }
}

#[test]
fn as_many_rooms_as_there_can_be_and_one_more() {
    for spans in [32_767, 32_768, 65_000] {
        let field = edges::apart(spans);
        check("apart", &field, 0, workspace_len(spans) + 9, spans);
    }
}

#[test]
fn refused() {
    let field = Field::open(7, 5);
    let n = field.spans();
    let wide = Field {
        w: 257,
        ..field.clone()
    };
    let mut astray = field.clone();
    astray.con[0] = 3;
    let mut unanswered = field.clone();
    unanswered.con[2] = 255;
    for (name, field) in [
        ("wide", wide),
        ("astray", astray),
        ("unanswered", unanswered),
    ] {
        check(name, &field, 1, workspace_len(n), n);
    }
    check("an id more", &field, 1, workspace_len(n), n + 1);
    check("a short workspace", &field, 1, workspace_len(n) - 1, n);
}
