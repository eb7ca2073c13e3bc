//! The model of request A7 beside the unchanged Rust's ids, and what its reasons say of the field.

use oracle::{
    field::{Case, DIRECTIONS, Field, Settings},
    file::{self, Limits},
    levels::{KINDS, Size},
    model::{Mistake, Model, Reason, Reasons},
    run, sketch,
    vectors::{STORED, unpack},
};
use std::fs;

/// The reasons of a case with its own distances.
fn reasons(model: Model, case: &Case) -> Option<Reasons> {
    let distances = run::distances(&case.field).ok()?;
    model
        .reasons(
            &case.field,
            &distances.blurred,
            distances.max_distance,
            case.settings,
        )
        .ok()
}

/// The fields of the stored vectors that are not refused.
fn stored() -> Vec<Case> {
    let batch = fs::read(format!("{STORED}/stdin")).expect("the stored fields");
    let files = unpack(&batch).expect("a whole batch");
    files
        .iter()
        .filter_map(|file| file::read(file, Limits::PROGRAM).ok())
        .filter(|case| run::distances(&case.field).is_ok())
        .collect()
}

/// The neighbours and corner neighbours of a span that have its area, in the order of looking.
fn looked_at(field: &Field, span: usize) -> Vec<usize> {
    let holds = |&cell: &usize| field.spans_in(cell).contains(&span);
    let cell = (0..field.cells()).find(holds).expect("a cell");
    let mut seen = Vec::new();
    for d in DIRECTIONS {
        let Some((beside, neighbour)) = field.neighbour(cell, span, d) else {
            continue;
        };
        if field.area[neighbour] != field.area[span] {
            continue;
        }
        seen.push(neighbour);
        seen.extend(
            field
                .neighbour(beside, neighbour, (d + 1) % 4)
                .map(|(_, corner)| corner)
                .filter(|&corner| field.area[corner] == field.area[span]),
        );
    }
    seen
}

fn check(case: &Case) {
    let Case { field, settings } = case;
    let (_, regions) = run::both(field, *settings).expect("regions");
    let reasons = reasons(Model::RIGHT, case).expect("reasons");
    let (mut last_ids, mut grown_ids) = (Vec::new(), Vec::new());
    for span in 0..field.spans() {
        let id = regions.ids[span];
        let is_flagged = id & 0x8000 != 0;
        let numbers = reasons.numbers(span);
        let told = |number: u16, trail: &[u16], grown_id: u16| {
            assert_eq!(number, id);
            assert!(id != 0 && !is_flagged);
            assert_eq!(trail.first(), Some(&grown_id));
            assert_eq!(numbers[7], trail.len() as u16);
            let list = reasons.trail_list(span);
            assert_eq!(list.len(), field.spans());
            assert_eq!(list[..trail.len()], *trail);
            assert!(list[trail.len()..].iter().all(|&id| id == 0));
        };
        match reasons.reason(span) {
            Reason::NotWalkable => assert!(field.area[span] == 0 && id == 0),
            Reason::Painted { strip } => {
                assert_eq!(id, 0x8000 + strip);
                assert!((1..=4).contains(&strip));
            }
            Reason::NeverReached => assert!(field.area[span] != 0 && id == 0),
            Reason::FilteredOut {
                group_count,
                least_area,
            } => {
                assert_eq!(id, 0);
                assert_eq!(least_area, settings.least_area);
                assert!((1..least_area).contains(&group_count));
                let removed = (0..field.spans())
                    .filter(|&other| matches!(reasons.reason(other), Reason::FilteredOut { .. }));
                assert!(usize::from(group_count) <= removed.count());
            }
            Reason::Flooded {
                grown_id,
                trail,
                number,
            } => {
                told(number, &trail, grown_id);
                last_ids.push((trail[trail.len() - 1], number));
                grown_ids.push((grown_id, number));
            }
            Reason::Expanded {
                grown_id,
                from_span,
                trail,
                number,
            } => {
                told(number, &trail, grown_id);
                last_ids.push((trail[trail.len() - 1], number));
                grown_ids.push((grown_id, number));
                let from = usize::from(from_span);
                assert!(looked_at(field, span).contains(&from));
                assert_eq!(reasons.numbers(from)[5], grown_id);
            }
        }
        if let Some(flood) = reasons.gave_back(span) {
            assert!(looked_at(field, span).contains(&flood.objecting));
            assert_ne!(flood.id, 0);
            assert_eq!(numbers[9..], [flood.id, flood.objecting as u16]);
        } else {
            assert_eq!(numbers[9..], [0, 0]);
        }
        if numbers[1] < 5 {
            assert_eq!(numbers[5..9], [0; 4]);
            assert!(reasons.trail_list(span).iter().all(|&id| id == 0));
        }
    }
    // the trail's last id is one that grew and stayed, and it numbers as `number`: one number for each
    for (last, number) in &last_ids {
        assert!(grown_ids.contains(&(*last, *number)));
        assert!(
            last_ids
                .iter()
                .all(|(other, to)| (other == last) == (to == number))
        );
    }
}

#[test]
fn reasons_say_what_the_unchanged_rust_gives() {
    let cases = stored();
    assert!(cases.len() >= 350);
    cases.iter().for_each(check);
    for kind in KINDS {
        for seed in 100..110 {
            check(&kind.make(Size::Small, seed));
        }
    }
}

#[test]
fn every_reason_is_told_often() {
    let mut counts = [0; 7];
    let (mut given_back, mut merged_twice) = (0, 0);
    for case in stored() {
        let reasons = reasons(Model::RIGHT, &case).expect("reasons");
        for span in 0..case.field.spans() {
            let numbers = reasons.numbers(span);
            counts[usize::from(numbers[1])] += 1;
            given_back += usize::from(numbers[9] != 0);
            merged_twice += usize::from(numbers[7] > 2);
        }
    }
    assert_eq!(counts[0], 0);
    assert!(counts[1..].iter().all(|&count| count > 200), "{counts:?}");
    assert!(given_back > 500, "{given_back}");
    assert!(merged_twice > 50, "{merged_twice}");
}

#[test]
fn every_mistake_about_reasons_is_caught() {
    let cases = stored();
    for &mistake in Mistake::TOLD {
        let shows = |case: &&Case| {
            let (right, wrong) = (
                reasons(Model::RIGHT, case).expect("reasons"),
                reasons(Model::with(mistake), case).expect("reasons"),
            );
            (0..case.field.spans()).any(|span| {
                right.numbers(span) != wrong.numbers(span)
                    || right.trail_list(span) != wrong.trail_list(span)
            })
        };
        let caught = cases.iter().filter(shows).take(2).count();
        assert_eq!(caught, 2, "{mistake:?} ({})", mistake.about());
    }
}

/// Numbers written down by hand from document 02's words.
#[test]
fn drawn_fields_have_the_reasons_that_are_written_down() {
    // the middle of 3 by 3 is flooded at level 0 with the limit 0, and all others with it
    let open = Case {
        field: Field::open(3, 3),
        settings: Settings::default(),
    };
    let told = reasons(Model::RIGHT, &open).expect("reasons");
    for span in 0..9 {
        assert_eq!(told.numbers(span), [0, 5, 0, 0, 0, 1, 0, 1, 1, 0, 0]);
        assert_eq!(told.trail_list(span), [1, 0, 0, 0, 0, 0, 0, 0, 0]);
    }
    // with the least area 10 the group of nine is removed
    let settings = Settings {
        least_area: 10,
        ..Settings::default()
    };
    let few = Case { settings, ..open };
    let told = reasons(Model::RIGHT, &few).expect("reasons");
    for span in 0..9 {
        assert_eq!(told.numbers(span), [0, 4, 0, 9, 10, 0, 0, 0, 0, 0, 0]);
        assert_eq!(told.trail_list(span), [0; 9]);
    }
    // document 01's figure: flood 5 gives (2,3) back, since behind (1,3) the corner (1,4) is painted; then (2,3) is an entry itself, and
    // flood 6, of which nothing comes, gives it back because of (1,3), which has 5; expansion fills it from there
    let settings = Settings {
        border_size: 1,
        ..Settings::default()
    };
    let field = Field::open(5, 5);
    let told = reasons(Model::RIGHT, &Case { field, settings }).expect("reasons");
    assert_eq!(told.numbers(0), [0, 2, 3, 0, 0, 0, 0, 0, 0, 0, 0]);
    assert_eq!(told.numbers(10), [0, 2, 1, 0, 0, 0, 0, 0, 0, 0, 0]);
    assert_eq!(told.numbers(14), [0, 2, 2, 0, 0, 0, 0, 0, 0, 0, 0]);
    assert_eq!(told.numbers(24), [0, 2, 4, 0, 0, 0, 0, 0, 0, 0, 0]);
    assert_eq!(told.numbers(12), [0, 5, 0, 0, 0, 5, 0, 1, 1, 0, 0]);
    assert_eq!(told.numbers(17), [0, 6, 0, 0, 0, 5, 16, 1, 1, 6, 16]);
    // a wall, and a single span that no flood comes to: max_distance is 0
    let wall = sketch::read("area w 0\n\na w b\n").expect("a draft");
    let told = reasons(Model::RIGHT, &wall).expect("reasons");
    assert_eq!(told.numbers(0), [0, 3, 0, 0, 0, 0, 0, 0, 0, 0, 0]);
    assert_eq!(told.numbers(1), [0, 1, 0, 0, 0, 0, 0, 0, 0, 0, 0]);
}
