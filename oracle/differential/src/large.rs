//! Large fields by seed, lent to the linked library and to the unchanged Rust.

use crate::{
    calls::Call,
    faults::{self, FAULTS},
    tally::{Tally, only},
};
use oracle::{
    field::{Case, Field, Settings},
    levels::{KINDS, Size, at_limits, long_corridor},
    rng::Rng,
    run,
};
use std::panic::{AssertUnwindSafe, catch_unwind};

/// The most that a distance may be.
const MOST_DISTANCE: usize = 510;

/// How many calls with a fault each field has.
const FAULTY_CALLS: usize = 8;

struct Shape {
    name: &'static str,
    make: fn(&mut Rng) -> Field,
    /// Whether the field is a corridor, of which the walk along the contour is what matters.
    is_corridor: bool,
}

const fn shape(name: &'static str, make: fn(&mut Rng) -> Field, is_corridor: bool) -> Shape {
    Shape {
        name,
        make,
        is_corridor,
    }
}

/// The shapes beside the kinds of `make`.
const SHAPES: [Shape; 7] = [
    shape("largest-open", at_limits::largest_open, false),
    shape("whole-grid", at_limits::whole_grid, false),
    shape("highest", at_limits::highest, false),
    shape("any-corridor", at_limits::any_corridor, true),
    // the contours of these have about the 40,000 steps after which the walk ends; in the last two one step decides
    shape("corridor-20013", |_| long_corridor(256, 20_013), true),
    shape("corridor-20000", |_| long_corridor(256, 20_000), true),
    shape("corridor-250", |_| long_corridor(250, 20_000), true),
];

/// Of so many seeds in a row each kind and each shape has one.
const ROUND: u64 = (KINDS.len() + SHAPES.len()) as u64;

/// Compares the fields of so many seeds.
pub fn compare(first: u64, count: u64) -> Tally {
    let mut tally = Tally::default();
    for seed in first..first + count {
        if tally.is_enough() {
            break;
        }
        let compared = catch_unwind(AssertUnwindSafe(|| compare_field(seed, &mut tally)));
        if compared.is_err() {
            differs(seed, "the comparison panics", &mut tally);
        }
        tally.fields += 1;
        tally.tell_progress("large", count);
    }
    tally
}

/// More spans than these a field has that `compare_full` takes: at most so many never run out of ids or source distances.
const MEDIUM: usize = 32_000;

/// Compares so many fields of more than 32,000 spans, of the seeds from the first on.
pub fn compare_full(first: u64, count: u64) -> Tally {
    let mut tally = Tally::default();
    let mut seed = first;
    while (tally.fields as u64) < count && !tally.is_enough() {
        if make(seed, &mut Rng::new(!seed)).1.field.spans() > MEDIUM {
            let compared = catch_unwind(AssertUnwindSafe(|| compare_field(seed, &mut tally)));
            if compared.is_err() {
                differs(seed, "the comparison panics", &mut tally);
            }
            tally.fields += 1;
            tally.tell_progress("full", count);
        }
        seed += 1;
    }
    tally
}

fn differs(seed: u64, what: &str, tally: &mut Tally) {
    tally.differs(&format!(
        "large field of seed {seed}: {what}\nagain: {} --seed {seed}",
        only("large", 1)
    ));
}

/// The field of a seed, with the name of its kind.
fn make(seed: u64, rng: &mut Rng) -> (&'static str, Case, bool) {
    let turn = (seed % ROUND) as usize;
    if let Some(kind) = KINDS.get(turn) {
        return (kind.name, kind.make(Size::Large, seed), false);
    }
    let shape = &SHAPES[turn - KINDS.len()];
    let settings = Settings {
        least_area: if shape.is_corridor { 2 } else { 0 },
        ..Settings::default()
    };
    let field = (shape.make)(rng);
    (shape.name, Case { field, settings }, shape.is_corridor)
}

fn compare_field(seed: u64, tally: &mut Tally) {
    let mut rng = Rng::new(!seed);
    let (kind, Case { field, settings }, is_corridor) = make(seed, &mut rng);
    let own = match run::distances(&field) {
        Ok(own) => own,
        Err(refusal) => return differs(seed, &format!("the Rust's side: {refusal}"), tally),
    };
    let own_call = Call::fitting(field, own.blurred, own.max_distance, settings);
    let mut compared = |name: &str, result: Result<String, String>| match result {
        Ok(answer) => tally.count(kind, &answer),
        Err(what) => differs(seed, &format!("kind {kind}, {name}: {what}"), tally),
    };
    compared("distance entry", own_call.compare_distances());
    compared("region entry, own distances", own_call.compare_regions());
    let mut call = own_call.clone();
    call.settings = any_settings(&mut rng);
    call.workspace_len += rng.within(1..=5_000);
    compared(
        "region entry, other settings and a longer workspace",
        call.compare_regions(),
    );
    let given = given_distances(&own_call, &mut rng);
    compared("region entry, given distances", given.compare_regions());
    if is_corridor {
        // all distances the same: it is one region
        let mut call = own_call.clone();
        call.max_distance = rng.pick(&[2, 3, 510]);
        call.distances.fill(call.max_distance);
        compared("region entry, one distance given", call.compare_regions());
    }
    for _ in 0..FAULTY_CALLS {
        let mut call = if rng.chance(50) {
            own_call.clone()
        } else {
            given.clone()
        };
        let fault = rng.within(0..=FAULTS - 1);
        faults::put(&mut call, fault, &mut rng);
        // some have two faults, of which the first by number is told
        if rng.chance(25) {
            let second = rng.within(0..=FAULTS - 1);
            faults::put(&mut call, second, &mut rng);
        }
        // a fault that one entry does not look at would only repeat what was compared
        let of_regions_alone = (9..=14).contains(&fault);
        let of_distances_alone = (7..=8).contains(&fault);
        if !of_regions_alone {
            compared(
                &format!("distance entry, fault {fault}"),
                call.compare_distances(),
            );
        }
        if !of_distances_alone {
            compared(
                &format!("region entry, fault {fault}"),
                call.compare_regions(),
            );
        }
    }
}

/// Settings of any size, mostly such as matter.
fn any_settings(rng: &mut Rng) -> Settings {
    Settings {
        border_size: rng.pick(&[0, 0, 0, 1, 2, 5, 20, 60, 127, 128, 255, 256, 300, 65_535]),
        least_area: rng.pick(&[0, 0, 1, 2, 8, 60, 400, 5_000, 32_000, 65_535]),
        merge_area: rng.pick(&[0, 0, 1, 8, 20, 60, 400, 5_000, 32_000, 65_535]),
    }
}

/// The call with distances that no field need have.
fn given_distances(own: &Call, rng: &mut Rng) -> Call {
    let n = own.field.spans();
    let any_most = rng.within(0..=MOST_DISTANCE);
    let most = rng.pick(&[1, 2, 3, 7, 15, 16, 17, 40, 255, 509, 510, any_most]);
    let distances: Vec<usize> = match rng.within(0..=5) {
        0 => (0..n).map(|_| rng.within(0..=most)).collect(),
        // only the two ends
        1 => (0..n).map(|_| rng.pick(&[0, most])).collect(),
        // its own, a little off
        2 => own
            .distances
            .iter()
            .map(|&distance| (usize::from(distance) + rng.within(0..=3)).min(most))
            .collect(),
        // its own, stretched
        3 => {
            let greatest = usize::from(own.max_distance).max(1);
            own.distances
                .iter()
                .map(|&distance| usize::from(distance) * most / greatest)
                .map(|distance| distance.min(most))
                .collect()
        }
        // up and down along the spans' numbers
        4 => {
            let length = rng.within(2..=400);
            (0..n)
                .map(|span| (span % (2 * length)).abs_diff(length) * most / length)
                .collect()
        }
        // in patches
        _ => {
            let mut distance = rng.within(0..=most);
            (0..n)
                .map(|_| {
                    if rng.chance(10) {
                        distance = rng.within(0..=most);
                    }
                    distance
                })
                .collect()
        }
    };
    let distances = distances
        .into_iter()
        .map(|distance| distance as u16)
        .collect();
    let settings = any_settings(rng);
    Call::fitting(own.field.clone(), distances, most as u16, settings)
}
