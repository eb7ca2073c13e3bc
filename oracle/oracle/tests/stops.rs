//! Request A6: where the model gives 12 and 13, and what the unchanged Rust does there.
//!
//! The paths take the Rust the square of their length, so their test is run by
//! `cargo test --offline --profile checked --test stops -- --ignored`.

use oracle::{
    field::{Field, Settings},
    levels::edges::{self, Steps},
    model::{Model, Stop},
    run,
};
use std::panic::catch_unwind;

fn by_span(steps: Steps) -> (Field, Vec<u16>, u16) {
    let (field, spans) = edges::path(steps.length);
    let mut distances = vec![0; field.spans()];
    for (&span, distance) in spans.iter().zip(steps.distances) {
        distances[span] = distance;
    }
    (field, distances, steps.max_distance)
}

fn stop(field: &Field, distances: &[u16], max_distance: u16) -> Option<Stop> {
    Model::RIGHT
        .regions(field, distances, max_distance, Settings::default())
        .err()
}

#[test]
fn ids_run_out_with_the_flood_of_0x7fff() {
    for (spans, expected) in [(32_766, None), (32_767, Some(Stop::Ids))] {
        let field = edges::apart(spans);
        assert_eq!(stop(&field, &vec![2; spans], 2), expected, "{spans} floods");
    }
}

#[test]
#[ignore = "takes minutes; see above"]
fn the_rust_panics_exactly_where_a_sum_exceeds_65535() {
    let cases = [
        (edges::from_one_end(32_768), None),
        (edges::from_one_end(32_769), Some(Stop::Sum)),
        (edges::from_both_ends(544, 32_222), None),
        (edges::from_both_ends(544, 32_223), Some(Stop::Sum)),
    ];
    for (steps, expected) in cases {
        let (field, distances, max_distance) = by_span(steps);
        assert_eq!(stop(&field, &distances, max_distance), expected);
        let ran =
            catch_unwind(|| run::unguarded(&field, &distances, max_distance, Settings::default()));
        assert_eq!(ran.is_err(), expected.is_some(), "{} spans", field.spans());
    }
}
