//! What holds of the answers for fields of every kind.

use oracle::{
    field::{Case, DIRECTIONS, Field, Settings},
    file::Limits,
    levels::{KINDS, Size, at_limits},
    rng::Rng,
    run::{self, Regions},
};
use std::collections::{BTreeMap, BTreeSet};

const FLAG: u16 = 0x8000;

fn cells_of_spans(field: &Field) -> Vec<usize> {
    (0..field.cells())
        .flat_map(|cell| field.spans_in(cell).map(move |_| cell))
        .collect()
}

/// The spans of each unflagged nonzero id.
fn rooms(ids: &[u16]) -> BTreeMap<u16, BTreeSet<usize>> {
    let mut rooms = BTreeMap::<_, BTreeSet<_>>::new();
    for (span, &id) in ids.iter().enumerate() {
        if id != 0 && id & FLAG == 0 {
            rooms.entry(id).or_default().insert(span);
        }
    }
    rooms
}

/// The spans of a room that its first span reaches without leaving it.
fn reached(field: &Field, cell_of: &[usize], room: &BTreeSet<usize>) -> BTreeSet<usize> {
    let mut found = BTreeSet::new();
    let mut next: Vec<_> = room.first().copied().into_iter().collect();
    while let Some(span) = next.pop() {
        if room.contains(&span) && found.insert(span) {
            let beside = |d| {
                field
                    .neighbour(cell_of[span], span, d)
                    .map(|(_, other)| other)
            };
            next.extend(DIRECTIONS.into_iter().filter_map(beside));
        }
    }
    found
}

#[track_caller]
fn check_rooms(field: &Field, settings: Settings, regions: &Regions, name: &str) {
    for (&area, &id) in field.area.iter().zip(&regions.ids) {
        assert!(
            area != 0 || id == 0,
            "{name}: a span that can't be walked on has id {id}"
        );
    }
    let rooms = rooms(&regions.ids);
    let first_id = if settings.border_size == 0 { 1 } else { 5 };
    let in_use: Vec<_> = rooms.keys().copied().collect();
    let expected: Vec<_> = (first_id..regions.max_region).collect();
    assert_eq!(in_use, expected, "{name}: ids in use");
    let cell_of = cells_of_spans(field);
    for (id, room) in &rooms {
        let areas: BTreeSet<_> = room.iter().map(|&span| field.area[span]).collect();
        assert_eq!(areas.len(), 1, "{name}: areas of {id}");
        assert_eq!(
            &reached(field, &cell_of, room),
            room,
            "{name}: {id} is in pieces"
        );
    }
}

/// Runs so many seeds of each kind, and looks at each answer.
fn check_kinds(size: Size, seeds: u64, mut check: impl FnMut(&Case, &Regions, &str)) {
    for kind in &KINDS {
        for seed in 0..seeds {
            let name = format!("{} {seed}", kind.name);
            let case = kind.make(size, seed);
            let (_, regions) = run::both_compared(&case.field, case.settings)
                .unwrap_or_else(|refusal| panic!("{name}: {refusal}"));
            check(&case, &regions, &name);
        }
    }
}

#[test]
fn rooms_of_small_fields() {
    check_kinds(Size::Small, 1_000, |case, regions, name| {
        check_rooms(&case.field, case.settings, regions, name)
    });
}

#[test]
fn rooms_of_large_fields() {
    check_kinds(Size::Large, 3, |case, regions, name| {
        check_rooms(&case.field, case.settings, regions, name)
    });
}

#[test]
fn rooms_of_given_distances() {
    for kind in &KINDS {
        for seed in 0..200 {
            let Case { field, settings } = kind.make(Size::Small, seed);
            let mut rng = Rng::new(!seed);
            let max_distance = rng.pick(&[1, 2, 7, 20, 40, 509, 510]);
            let distances: Vec<_> = field
                .area
                .iter()
                .map(|_| rng.within(0..=usize::from(max_distance)) as u16)
                .collect();
            let regions = run::regions(&field, &distances, max_distance, settings).unwrap();
            check_rooms(
                &field,
                settings,
                &regions,
                &format!("{} {seed} with given distances", kind.name),
            );
        }
    }
}

/// A span above 0 has a neighbour in the column before its own, at most 2 lower; the blur is a mean.
#[test]
fn distances_are_bounded() {
    for kind in &KINDS {
        for seed in 0..200 {
            let field = kind.make(Size::Small, seed).field;
            let distances = run::distances(&field).unwrap();
            let greatest = distances.raw.iter().max().copied().unwrap_or(0);
            assert_eq!(distances.max_distance, greatest, "{} {seed}", kind.name);
            assert!(
                distances
                    .blurred
                    .iter()
                    .all(|&distance| distance <= greatest),
                "{} {seed}",
                kind.name
            );
            for (cell, raw) in cells_of_spans(&field).into_iter().zip(&distances.raw) {
                let column = cell % usize::from(field.w);
                assert!(
                    usize::from(*raw) <= 2 * column,
                    "{} {seed}: {raw} in column {column}",
                    kind.name
                );
            }
        }
    }
}

#[test]
fn small_fields_suit_the_program() {
    for kind in &KINDS {
        for seed in 0..400 {
            let field = kind.make(Size::Small, seed).field;
            let fits =
                field.cells() <= Limits::PROGRAM.cells && field.spans() <= Limits::PROGRAM.spans;
            assert!(
                fits,
                "{} {seed}: {} cells, {} spans",
                kind.name,
                field.cells(),
                field.spans()
            );
        }
    }
}

/// The kinds between them bring about what is worth comparing.
#[test]
fn kinds_reach_what_they_are_for() {
    let mut seen = BTreeSet::new();
    check_kinds(Size::Small, 200, |case, regions, _| {
        let Case { field, settings } = case;
        let facts = [
            ("an empty field", field.spans() == 0),
            ("an empty cell", field.count.contains(&0)),
            ("63 layers", field.count.contains(&63)),
            ("200 spans", field.spans() == 200),
            ("area 0", field.area.contains(&0)),
            (
                "several areas",
                field.area.iter().collect::<BTreeSet<_>>().len() > 2,
            ),
            (
                "a border",
                settings.border_size > 0 && regions.ids.iter().any(|id| id & FLAG != 0),
            ),
            ("overlap", regions.overlaps > 0),
            ("ten rooms", regions.max_region > 14),
            ("no room", rooms(&regions.ids).is_empty()),
        ];
        seen.extend(
            facts
                .into_iter()
                .filter(|(_, holds)| *holds)
                .map(|(fact, _)| fact),
        );
    });
    assert_eq!(seen.len(), 10, "{seen:?}");
}

#[test]
fn fields_at_the_limits_are_there_and_not_refused() {
    for seed in 0..12 {
        let rng = &mut Rng::new(seed);
        let open = at_limits::largest_open(rng);
        assert!((32_000..=65_000).contains(&open.spans()));
        let grid = at_limits::whole_grid(rng);
        assert_eq!((grid.w, grid.h, grid.spans()), (256, 256, 65_000));
        let highest = at_limits::highest(rng);
        assert!(highest.count.iter().all(|&count| count == 63));
        let corridor = at_limits::any_corridor(rng);
        for field in [open, grid, highest, corridor] {
            assert!(run::distances(&field).is_ok(), "seed {seed}");
        }
    }
}
