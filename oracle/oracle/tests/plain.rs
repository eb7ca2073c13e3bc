//! Plain rooms: what document 02 says of them, on drawn fields and on fields by seed.

use oracle::{
    field::{DIRECTIONS, Field},
    levels::{KINDS, Size},
    plain::{self, PlainRooms},
    refusals::{Refusal, workspace_needed},
};

fn rooms(field: &Field, border: u16) -> Result<PlainRooms, Refusal> {
    let n = field.spans();
    plain::build(field, border, n, workspace_needed(n))
}

#[test]
fn a_drawn_field() {
    let mut field = Field::open(3, 2);
    field.area = vec![1, 0, 1, 1, 2, 1];
    let found = rooms(&field, 0).expect("a sound field");
    assert_eq!(found.ids, [1, 0, 2, 1, 3, 2]);
    assert_eq!(found.max_region, 3);
}

#[test]
fn paint_joins_nothing() {
    let found = rooms(&Field::open(5, 5), 1).expect("a sound field");
    assert_eq!(found.ids[..5], [0x8003; 5]);
    assert_eq!(found.ids[10], 0x8001);
    assert_eq!(found.ids[14], 0x8002);
    assert_eq!(found.ids[24], 0x8004);
    assert_eq!(found.ids[12], 1);
    assert_eq!(found.max_region, 1);
    let all = rooms(&Field::open(5, 5), 300).expect("a sound field");
    assert_eq!((all.ids, all.max_region), (vec![0x8004; 25], 0));
}

#[test]
fn too_many_rooms() {
    // spans apart: no connection at all
    for (spans, few) in [(32_767, true), (32_768, false)] {
        let (w, h) = (256, 256_u16);
        let cells = usize::from(w) * usize::from(h);
        let field = Field {
            w,
            h,
            index: (0..cells).map(|cell| cell.min(spans) as u32).collect(),
            count: (0..cells).map(|cell| u8::from(cell < spans)).collect(),
            area: vec![1; spans],
            con: vec![255; 4 * spans],
        };
        let found = rooms(&field, 0).map(|found| found.max_region);
        let expected = if few {
            Ok(32_767)
        } else {
            Err(Refusal::IdsRunOut)
        };
        assert_eq!(found, expected);
    }
}

/// Same id exactly if joined, by a search of its own from every span.
#[test]
fn small_fields_of_every_kind() {
    for kind in KINDS {
        for seed in 0..5 {
            let case = kind.make(Size::Small, seed);
            let found = rooms(&case.field, case.settings.border_size).expect("a sound field");
            same_exactly_if_joined(&case.field, &found);
        }
    }
}

fn same_exactly_if_joined(field: &Field, found: &PlainRooms) {
    let cell_of: Vec<_> = (0..field.cells())
        .flat_map(|cell| field.spans_in(cell).map(move |_| cell))
        .collect();
    let part = |span: usize| field.area[span] != 0 && found.ids[span] & 0x8000 == 0;
    let mut last = 0;
    for span in 0..field.spans() {
        if !part(span) {
            continue;
        }
        let mut reached = vec![false; field.spans()];
        reached[span] = true;
        let mut todo = vec![span];
        while let Some(from) = todo.pop() {
            for d in DIRECTIONS {
                let Some((_, to)) = field.neighbour(cell_of[from], from, d) else {
                    continue;
                };
                if part(to) && field.area[to] == field.area[span] && !reached[to] {
                    reached[to] = true;
                    todo.push(to);
                }
            }
        }
        for other in (0..field.spans()).filter(|&other| part(other)) {
            assert_eq!(found.ids[other] == found.ids[span], reached[other]);
        }
        if reached.iter().position(|&held| held) == Some(span) {
            last += 1;
            assert_eq!(found.ids[span], last);
        }
    }
    assert_eq!(found.max_region, last);
}
