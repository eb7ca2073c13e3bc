//! The functions held against the unchanged Rust, and the mending against the model of document 02: every number and every list, refused or not.

use gussetraft::{
    build_distance_field, build_regions, changes_len, mend, workspace_len, Edited, Refusal,
    Regions, Sizes,
};
use oracle::{
    damage::DAMAGES,
    field::{Field, Settings},
    file::{self, Limits},
    levels::{Size, KINDS},
    mending, refusals,
    rng::Rng,
    run,
};

fn lent(field: &Field) -> gussetraft::Field<'_> {
    gussetraft::Field {
        w: field.w,
        h: field.h,
        index: &field.index,
        count: &field.count,
        area: &field.area,
        con: &field.con,
    }
}

fn refusal(refusal: refusals::Refusal) -> Refusal {
    Refusal::from_number(refusal as u16).expect("a number that the functions give")
}

/// A list that is no answer: what a refused call must leave as it is, and what any other must write over.
fn scribbled(len: usize) -> Vec<u16> {
    (0..len).map(|place| (place * 40_503 + 7) as u16).collect()
}

fn same(name: &str, list: &str, found: &[u16], expected: &[u16]) {
    assert_eq!(found.len(), expected.len(), "{name}: length of {list}");
    if let Some(place) = (0..found.len()).find(|&place| found[place] != expected[place]) {
        let (found, expected) = (found[place], expected[place]);
        panic!("{name}: {list} has {found} at {place}, the Rust {expected}");
    }
}

/// The distance entry with its two lists of some lengths.
fn check_distances(name: &str, field: &Field, raw_len: usize, blurred_len: usize) {
    let (raw_before, blurred_before) = (scribbled(raw_len), scribbled(blurred_len));
    let (mut raw, mut blurred) = (raw_before.clone(), blurred_before.clone());
    let answer = build_distance_field(&lent(field), &mut raw, &mut blurred);
    let expected =
        refusals::distance_entry(field, raw_len, blurred_len).and_then(|()| run::distances(field));
    match expected {
        Ok(expected) => {
            assert_eq!(answer, Ok(expected.max_distance), "{name}");
            same(name, "raw", &raw, &expected.raw);
            same(name, "blurred", &blurred, &expected.blurred);
        }
        Err(expected) => {
            assert_eq!(answer, Err(refusal(expected)), "{name}");
            same(name, "raw", &raw, &raw_before);
            same(name, "blurred", &blurred, &blurred_before);
        }
    }
}

/// What the region entry is lent beside the field.
#[derive(Clone)]
struct Lent {
    distances: Vec<u16>,
    max_distance: u16,
    settings: Settings,
    workspace_len: usize,
    ids_len: usize,
}

impl Lent {
    /// Lists of the lengths that the field asks for.
    fn fitting(field: &Field, distances: Vec<u16>, max_distance: u16, settings: Settings) -> Self {
        Self {
            distances,
            max_distance,
            settings,
            workspace_len: workspace_len(field.spans()),
            ids_len: field.spans(),
        }
    }
}

fn check_regions(name: &str, field: &Field, beside: &Lent) {
    let (workspace_before, ids_before) =
        (scribbled(beside.workspace_len), scribbled(beside.ids_len));
    let (mut workspace, mut ids) = (workspace_before.clone(), ids_before.clone());
    let sizes = Sizes {
        border_size: beside.settings.border_size,
        min_region_area: beside.settings.least_area,
        merge_region_area: beside.settings.merge_area,
    };
    let answer = build_regions(
        &lent(field),
        &beside.distances,
        beside.max_distance,
        &sizes,
        &mut workspace,
        &mut ids,
    );
    let expected = refusals::region_entry(
        field,
        &beside.distances,
        beside.max_distance,
        beside.ids_len,
        beside.workspace_len,
    )
    .and_then(|()| {
        run::regions(
            field,
            &beside.distances,
            beside.max_distance,
            beside.settings,
        )
        .map(run::Regions::dense)
    });
    match expected {
        Ok(expected) => {
            let numbers = Regions {
                max_region: expected.max_region,
                overlaps: expected.overlaps.try_into().expect("records fit 16 bits"),
                cut: expected.cut.try_into().expect("records fit 16 bits"),
            };
            assert_eq!(answer, Ok(numbers), "{name}");
            same(name, "ids", &ids, &expected.ids);
            same(name, "workspace", &workspace, &vec![0; workspace.len()]);
        }
        Err(expected) => {
            assert_eq!(answer, Err(refusal(expected)), "{name}");
            same(name, "ids", &ids, &ids_before);
            same(name, "workspace", &workspace, &workspace_before);
        }
    }
}

/// Both entries in turn on a field that is not refused.
fn check_both(name: &str, field: &Field, settings: Settings) {
    check_distances(name, field, field.spans(), field.spans());
    let distances = run::distances(field).expect("a sound field");
    let beside = Lent::fitting(field, distances.blurred, distances.max_distance, settings);
    check_regions(name, field, &beside);
}

#[test]
fn small_fields_of_every_kind() {
    for kind in &KINDS {
        for seed in 0..150 {
            let case = kind.make(Size::Small, seed);
            check_both(
                &format!("small {} {seed}", kind.name),
                &case.field,
                case.settings,
            );
        }
    }
}

#[test]
fn large_fields_of_every_kind() {
    for kind in &KINDS {
        for seed in 0..3 {
            let case = kind.make(Size::Large, seed);
            check_both(
                &format!("large {} {seed}", kind.name),
                &case.field,
                case.settings,
            );
        }
    }
}

#[test]
fn distances_that_no_field_has() {
    let mut rng = Rng::new(1);
    for turn in 0..600 {
        let kind = rng.pick(&KINDS);
        let case = kind.make(Size::Small, rng.number());
        let max_distance = rng.pick(&[0, 1, 2, 3, 7, 15, 16, 17, 40, 509, 510]);
        let distances = (0..case.field.spans())
            .map(|_| rng.within(0..=max_distance) as u16)
            .collect();
        let beside = Lent::fitting(&case.field, distances, max_distance as u16, case.settings);
        check_regions(
            &format!("given distances, turn {turn}, {}", kind.name),
            &case.field,
            &beside,
        );
    }
}

#[test]
fn damaged_fields() {
    for damage in &DAMAGES {
        for seed in 0..40 {
            // damage that a file's reader meets leaves no field
            let Ok(case) = file::read(&damage.make(seed), Limits::FORMAT) else {
                continue;
            };
            let name = format!("{} {seed}", damage.name);
            let n = case.field.spans();
            check_distances(&name, &case.field, n, n);
            let beside = Lent::fitting(&case.field, vec![0; n], 0, case.settings);
            check_regions(&name, &case.field, &beside);
        }
    }
}

/// One list longer or shorter, one number changed, or both, of fields of every kind; most are refused.
#[test]
fn one_thing_wrong() {
    let mut rng = Rng::new(2);
    let mut given = [0; 9];
    for turn in 0..3_000 {
        let kind = rng.pick(&KINDS);
        let mut case = kind.make(Size::Small, rng.number());
        let field = &mut case.field;
        let distances = run::distances(field).expect("a sound field");
        let n = field.spans();
        let (mut raw_len, mut blurred_len) = (n, n);
        let mut beside = Lent::fitting(
            field,
            distances.blurred,
            distances.max_distance,
            case.settings,
        );
        for _ in 0..rng.within(1..=2) {
            let near = |len: usize, rng: &mut Rng| match rng.within(0..=2) {
                0 => len + 1,
                1 => len.saturating_sub(1),
                _ => 0,
            };
            match rng.within(0..=15) {
                0 => field.w = rng.pick(&[0, 1, 255, 256, 257, 65_535]),
                1 => field.h = rng.pick(&[0, 1, 255, 256, 257, 65_535]),
                2 => field.index.resize(near(field.index.len(), &mut rng), 0),
                3 => field.count.resize(near(field.count.len(), &mut rng), 1),
                4 => field.area.resize(near(n, &mut rng), 1),
                5 => field.con.resize(near(field.con.len(), &mut rng), 255),
                6 => raw_len = near(n, &mut rng),
                7 => blurred_len = near(n, &mut rng),
                8 => beside.distances.resize(near(n, &mut rng), 0),
                9 => beside.ids_len = near(n, &mut rng),
                10 => beside.workspace_len = near(beside.workspace_len, &mut rng),
                11 => beside.max_distance = rng.pick(&[0, 1, 509, 510, 511, 65_535]),
                12 if !beside.distances.is_empty() => {
                    let place = rng.within(0..=beside.distances.len() - 1);
                    beside.distances[place] = rng.pick(&[0, 1, 510, 511, 65_535]);
                }
                13 if !field.index.is_empty() => {
                    let place = rng.within(0..=field.index.len() - 1);
                    field.index[place] = rng.pick(&[0, 1, 63, 64, n as u32, u32::MAX]);
                }
                14 if !field.count.is_empty() => {
                    let place = rng.within(0..=field.count.len() - 1);
                    field.count[place] = rng.pick(&[0, 1, 2, 63, 64, 255]);
                }
                15 if !field.con.is_empty() => {
                    let place = rng.within(0..=field.con.len() - 1);
                    field.con[place] = rng.pick(&[0, 1, 2, 63, 64, 254, 255]);
                }
                _ => {}
            }
        }
        let name = format!("one thing wrong, turn {turn}, {}", kind.name);
        check_distances(&name, field, raw_len, blurred_len);
        check_regions(&name, field, &beside);
        let number = refusals::region_entry(
            field,
            &beside.distances,
            beside.max_distance,
            beside.ids_len,
            beside.workspace_len,
        )
        .map_or_else(|refusal| refusal as usize, |()| 0);
        given[number] += 1;
    }
    for (number, &times) in given.iter().enumerate() {
        assert!(times > 0 || number == 2, "no turn was refused {number}");
    }
}

/// Lists of noise, of lengths that mostly fit.
#[test]
fn noise() {
    let mut rng = Rng::new(3);
    for turn in 0..2_000 {
        let (w, h) = (rng.within(0..=6), rng.within(0..=6));
        let most = rng.pick(&[1, 2, 64]);
        let count: Vec<u8> = (0..w * h)
            .map(|_| rng.within(0..=most as usize) as u8)
            .collect();
        let mut sum = 0;
        let index = count
            .iter()
            .map(|&count| {
                let before = sum;
                sum += u32::from(count);
                before
            })
            .collect();
        let n = sum as usize;
        let joined = rng.pick(&[0, 5, 50]);
        let field = Field {
            w: w as u16,
            h: h as u16,
            index,
            count,
            area: (0..n).map(|_| rng.within(0..=2) as u8).collect(),
            con: (0..4 * n)
                .map(|_| {
                    if rng.chance(joined) {
                        rng.within(0..=3) as u8
                    } else {
                        255
                    }
                })
                .collect(),
        };
        let name = format!("noise, turn {turn}");
        check_distances(&name, &field, n, n);
        let max_distance = rng.within(0..=600) as u16;
        let distances = (0..n).map(|_| rng.within(0..=520) as u16).collect();
        let beside = Lent::fitting(&field, distances, max_distance, Settings::default());
        check_regions(&name, &field, &beside);
    }
}

#[test]
fn limits_and_one_past_them() {
    let apart = |spans: usize| Field {
        w: 250,
        h: 130,
        index: (0..32_500).map(|cell| 2 * cell).collect(),
        count: vec![2; 32_500],
        area: vec![1; spans],
        con: vec![255; 4 * spans],
    };
    for n in [65_000, 65_001] {
        let field = apart(n);
        let name = format!("n {n}");
        check_distances(&name, &field, n, n);
        let beside = Lent::fitting(&field, vec![0; n], 0, Settings::default());
        check_regions(&name, &field, &beside);
    }
    let field = Field::open(3, 3);
    let distances = run::distances(&field).expect("a sound field");
    let fitting = Lent::fitting(
        &field,
        distances.blurred,
        distances.max_distance,
        Settings::default(),
    );
    for (name, beside) in [
        (
            "workspace one short",
            Lent {
                workspace_len: workspace_len(9) - 1,
                ..fitting.clone()
            },
        ),
        (
            "workspace with more",
            Lent {
                workspace_len: workspace_len(9) + 999,
                ..fitting.clone()
            },
        ),
        (
            "max_distance 510",
            Lent {
                max_distance: 510,
                ..fitting.clone()
            },
        ),
        (
            "max_distance 511",
            Lent {
                max_distance: 511,
                ..fitting.clone()
            },
        ),
    ] {
        check_regions(name, &field, &beside);
    }
}

#[test]
fn an_empty_field_takes_empty_lists() {
    let empty = Field::default();
    check_distances("empty", &empty, 0, 0);
    for border_size in [0, 1] {
        let settings = Settings {
            border_size,
            ..Settings::default()
        };
        check_regions("empty", &empty, &Lent::fitting(&empty, vec![], 0, settings));
    }
}

#[test]
fn a_refusal_names_its_number_and_meaning() {
    let numbers: Vec<u16> = (1..=14).chain([20, 21, 27, 31]).collect();
    assert_eq!(Refusal::ALL.map(Refusal::number)[..], numbers);
    for (number, refusal) in numbers.into_iter().zip(Refusal::ALL) {
        assert_eq!(Refusal::from_number(number), Some(refusal));
        assert_eq!(
            refusal.to_string(),
            format!("refused {number}: {}", refusal.meaning())
        );
    }
    for number in [0, 15, 19, 22, 26, 28, 30, 32, u16::MAX] {
        assert_eq!(Refusal::from_number(number), None);
    }
    assert_eq!(
        Refusal::WrongBack.to_string(),
        "refused 6: a connection is not answered from the other side"
    );
}

#[test]
fn calls_on_several_threads() {
    std::thread::scope(|scope| {
        for (thread, kind) in KINDS.iter().enumerate().take(4) {
            scope.spawn(move || {
                for seed in 0..20 {
                    let case = kind.make(Size::Small, seed);
                    check_both(
                        &format!("thread {thread}, {} {seed}", kind.name),
                        &case.field,
                        case.settings,
                    );
                }
            });
        }
    });
}

#[test]
fn the_workspace_of_too_many_spans_is_no_wrapped_number() {
    assert_eq!(workspace_len(0), 4_096);
    assert_eq!(workspace_len(65_000), 8_324_096);
    assert_eq!(workspace_len(usize::MAX), usize::MAX);
}

/// The mending, with a list of some length.
fn check_mending(name: &str, field: &Field, len: usize) {
    let before = scribbled(len);
    let (mut con, mut changes) = (field.con.clone(), before.clone());
    let mut edited = Edited {
        w: field.w,
        h: field.h,
        index: &field.index,
        count: &field.count,
        area: &field.area,
        con: &mut con,
    };
    let answer = mend(&mut edited, &mut changes);
    match mending::mend(field, len / 3) {
        Ok(expected) => {
            assert_eq!(answer, Ok(expected.changes.len()), "{name}");
            assert_eq!(con, expected.con, "{name}");
            let mut listed = expected.numbers();
            listed.extend(&before[listed.len()..]);
            same(name, "changes", &changes, &listed);
        }
        Err(expected) => {
            assert_eq!(answer, Err(refusal(expected)), "{name}");
            assert_eq!(con, field.con, "{name}");
            same(name, "changes", &changes, &before);
        }
    }
}

#[test]
fn edited_fields_are_mended() {
    let mut rng = Rng::new(27);
    for kind in &KINDS {
        for seed in 0..100 {
            let name = format!("{} {seed}", kind.name);
            let mut field = kind.make(Size::Small, seed).field;
            check_mending(&name, &field, 0);
            for _ in 0..rng.within(1..=6) {
                let n = field.spans();
                if n > 0 {
                    field.con[rng.within(0..=4 * n - 1)] = rng.pick(&[0, 1, 63, 254, 255]);
                }
            }
            for len in [0, 2, 3, 5, 6, 11, changes_len(field.spans())] {
                check_mending(&name, &field, len);
            }
            field.con.pop();
            check_mending(&name, &field, 3);
        }
    }
}
