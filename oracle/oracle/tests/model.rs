//! The model of document 01 beside the unchanged Rust.

use oracle::{
    damage::DAMAGES,
    field::{Case, Field, Settings},
    file::{self, Limits},
    levels::{self, KINDS, Size},
    listing,
    model::{Distances, Mistake, Model},
    rng::Rng,
    run,
};

/// Both entries, with these distances if given, with the distance entry's otherwise.
#[track_caller]
fn check(name: &str, case: &Case, given: Option<(&[u16], u16)>) {
    let Case { field, settings } = case;
    let distances = run::distances(field).expect(name);
    let modelled = Model::RIGHT.distances(field);
    assert_eq!(modelled.raw, distances.raw, "{name}: raw");
    assert_eq!(modelled.blurred, distances.blurred, "{name}: blurred");
    assert_eq!(
        modelled.max_distance, distances.max_distance,
        "{name}: max_distance"
    );
    let (blurred, max_distance) = given.unwrap_or((&distances.blurred, distances.max_distance));
    let regions = run::regions(field, blurred, max_distance, *settings).expect(name);
    let modelled = Model::RIGHT
        .regions(field, blurred, max_distance, *settings)
        .expect(name);
    assert_eq!(modelled.ids, regions.ids, "{name}: ids");
    assert_eq!(
        modelled.max_region, regions.max_region,
        "{name}: max_region"
    );
    assert_eq!(modelled.overlaps, regions.overlaps, "{name}: overlaps");
    assert_eq!(modelled.cut, regions.cut, "{name}: cut");
}

#[test]
fn same_listing_on_small_fields() {
    for kind in &KINDS {
        for seed in 0..400 {
            let file = file::write(&kind.make(Size::Small, seed));
            let listing = listing::answer(&file, Limits::PROGRAM);
            assert_eq!(Model::RIGHT.answer(&file), listing, "{} {seed}", kind.name);
        }
    }
}

#[test]
fn same_refusal_on_damaged_files() {
    for damage in &DAMAGES {
        for seed in 0..400 {
            let file = damage.make(seed);
            let listing = listing::answer(&file, Limits::PROGRAM);
            assert_eq!(
                Model::RIGHT.answer(&file),
                listing,
                "{} {seed}",
                damage.name
            );
        }
    }
}

/// Bytes of sound files overwritten at random: whatever comes of it.
#[test]
fn same_answer_on_spoilt_files() {
    for kind in &KINDS {
        for seed in 0..400 {
            let mut rng = Rng::new(seed);
            let mut file = file::write(&kind.make(Size::Small, seed));
            for _ in 0..rng.within(1..=3) {
                let place = rng.within(0..=file.len() - 1);
                file[place] = rng.pick(&[0, 1, 2, 3, 4, 5, 64, 255]);
            }
            let listing = listing::answer(&file, Limits::PROGRAM);
            assert_eq!(Model::RIGHT.answer(&file), listing, "{} {seed}", kind.name);
        }
    }
}

#[test]
fn same_numbers_on_large_fields() {
    for kind in &KINDS {
        for seed in 0..2 {
            let case = kind.make(Size::Large, seed);
            check(&format!("{} {seed}", kind.name), &case, None);
        }
    }
}

/// The region entry takes any distances, not only those of the distance entry.
#[test]
fn same_numbers_with_given_distances() {
    for kind in &KINDS {
        for seed in 0..200 {
            let case = kind.make(Size::Small, seed);
            let mut rng = Rng::new(seed);
            let max_distance = rng.pick(&[0, 1, 2, 3, 5, 17, 40, 509, 510]);
            let distances: Vec<_> = (0..case.field.spans())
                .map(|_| rng.within(0..=max_distance) as u16)
                .collect();
            check(
                &format!("{} {seed}", kind.name),
                &case,
                Some((&distances, max_distance as u16)),
            );
        }
    }
}

/// The distance at the ends of the range, and settings past every size.
#[test]
fn same_numbers_with_great_settings() {
    let settings = Settings {
        border_size: u16::MAX,
        least_area: u16::MAX,
        merge_area: u16::MAX,
    };
    for (w, h) in [(0, 0), (0, 3), (3, 0), (1, 1), (7, 5), (20, 20)] {
        let field = Field::open(w, h);
        for border_size in [0, 1, 2, 10, u16::MAX] {
            let settings = Settings {
                border_size,
                ..settings
            };
            let case = Case {
                field: field.clone(),
                settings,
            };
            check(&format!("{w} by {h}, border {border_size}"), &case, None);
        }
    }
}

/// Distances of no field, for the region entry.
fn any_distances(rng: &mut Rng, spans: usize) -> (Vec<u16>, u16) {
    let max_distance = rng.pick(&[2, 5, 17, 40, 510]);
    let distances = (0..spans).map(|_| rng.within(0..=max_distance) as u16);
    (distances.collect(), max_distance as u16)
}

/// What document 01 says, but no answer shows, is not shown by large fields or by distances of any sort either.
#[test]
fn mistakes_that_are_not_seen() {
    let is_walk = |mistake| matches!(mistake, Mistake::WalkSteps39999 | Mistake::WalkSteps40001);
    let unseen: Vec<_> = Mistake::ALL
        .iter()
        .copied()
        .filter(|&mistake| mistake.unseen().is_some() && !is_walk(mistake))
        .collect();
    for (number, kind) in KINDS.iter().enumerate() {
        let large = (kind.make(Size::Large, number as u64), "large");
        let small = (0..40).map(|seed| (kind.make(Size::Small, seed), "small"));
        for (case, size) in small.chain([large]) {
            let Case { field, settings } = case;
            let right = Model::RIGHT.distances(&field);
            let mut rng = Rng::new(0);
            let (given, greatest) = any_distances(&mut rng, field.spans());
            let own = (&right.blurred, right.max_distance);
            let lists = if size == "small" {
                vec![own, (&given, greatest)]
            } else {
                vec![own]
            };
            let regions = |model: Model| -> Vec<_> {
                let of = |&(distances, max): &(&Vec<u16>, u16)| {
                    model.regions(&field, distances, max, settings)
                };
                lists.iter().map(of).collect()
            };
            let right_regions = regions(Model::RIGHT);
            for &mistake in &unseen {
                let model = Model::with(mistake);
                assert_eq!(model.distances(&field), right, "{mistake:?} {}", kind.name);
                assert_eq!(regions(model), right_regions, "{mistake:?} {}", kind.name);
            }
        }
    }
}

/// The span past the end is removed if the corridor does not list it. One step of the walk decides.
#[test]
fn the_walk_ends_after_40_000_steps() {
    let settings = Settings {
        least_area: 2,
        ..Settings::default()
    };
    for (w, mistake) in [
        (250, Mistake::WalkSteps39999),
        (256, Mistake::WalkSteps40001),
    ] {
        let name = format!("corridor in rows of {w}");
        let field = levels::long_corridor(w, 20_000);
        let Distances {
            blurred,
            max_distance,
            ..
        } = Model::RIGHT.distances(&field);
        let regions = |model: Model| model.regions(&field, &blurred, max_distance, settings);
        assert_ne!(
            regions(Model::with(mistake)),
            regions(Model::RIGHT),
            "{name}"
        );
        check(&name, &Case { field, settings }, None);
    }
}
