//! Distance rules.

use super::{Distances, Mistake, Model, spans::Spans};

pub fn distances(model: Model, spans: &Spans) -> Distances {
    let mut raw = at_the_edges(model, spans);
    if model.has(Mistake::Pass2First) {
        pass_2(model, spans, &mut raw);
    }
    pass_1(model, spans, &mut raw);
    if !model.has(Mistake::Pass2First) && !model.has(Mistake::OnePass) {
        pass_2(model, spans, &mut raw);
    }
    let blurred = blur(model, spans, &raw);
    let max_distance = match model.mistake {
        Some(Mistake::MaxOfBlurred) => blurred.iter().copied().max(),
        Some(Mistake::MaxOfWalkable) => (0..spans.number())
            .filter(|&span| spans.is_walkable(span))
            .map(|span| raw[span])
            .max(),
        _ => raw.iter().copied().max(),
    };
    let narrow = |values: Vec<u32>| values.into_iter().map(|value| value as u16).collect();
    Distances {
        blurred: if model.has(Mistake::NoBlur) {
            narrow(raw.clone())
        } else {
            narrow(blurred)
        },
        raw: narrow(raw),
        max_distance: max_distance.unwrap_or(0) as u16,
    }
}

/// Start at 65,535. A span with fewer than four neighbours of its own area gets 0 (area 0 counts as an area).
fn at_the_edges(model: Model, spans: &Spans) -> Vec<u32> {
    let enough = if model.has(Mistake::EdgeUnderThree) {
        3
    } else {
        4
    };
    let distance = |span| {
        let counts = |d: &usize| {
            if model.has(Mistake::EdgeOfAnyArea) {
                spans.neighbour(span, *d).is_some()
            } else {
                spans.same_area_neighbour(span, *d).is_some()
            }
        };
        let inner = (0..4).filter(counts).count() >= enough;
        let no_area = model.has(Mistake::AreaZeroIsEdge) && !spans.is_walkable(span);
        if inner && !no_area { 65_535 } else { 0 }
    };
    (0..spans.number()).map(distance).collect()
}

/// Rows and columns upward: neighbour 0 and its neighbour 3, neighbour 3 and its neighbour 2.
fn pass_1(model: Model, spans: &Spans, raw: &mut [u32]) {
    let ways = if model.has(Mistake::Pass1CornersByTurn) {
        [(0, 1), (3, 0)]
    } else {
        [(0, 3), (3, 2)]
    };
    let layers_upward = !model.has(Mistake::Pass1LayersDownward);
    let mut places: Vec<_> = rows_and_columns(spans).collect();
    if model.has(Mistake::Pass1ColumnByColumn) {
        places.sort();
    }
    pass(model, spans, raw, places, layers_upward, ways);
}

/// Downward in rows and columns, layers still upward: neighbour 2 and its neighbour 1, neighbour 1 and its neighbour 0.
fn pass_2(model: Model, spans: &Spans, raw: &mut [u32]) {
    let ways = if model.has(Mistake::Pass2CornersByTurn) {
        [(2, 3), (1, 2)]
    } else {
        [(2, 1), (1, 0)]
    };
    let layers_upward = !model.has(Mistake::Pass2LayersDownward);
    let turned = |(x, z)| {
        let x_turned = if model.has(Mistake::Pass2ColumnsUpward) {
            x
        } else {
            spans.w - 1 - x
        };
        let z_turned = if model.has(Mistake::Pass2RowsUpward) {
            z
        } else {
            spans.h - 1 - z
        };
        (x_turned, z_turned)
    };
    let places = rows_and_columns(spans).map(turned).collect();
    pass(model, spans, raw, places, layers_upward, ways);
}

fn rows_and_columns(spans: &Spans) -> impl Iterator<Item = (usize, usize)> + use<> {
    let (w, h) = (spans.w, spans.h);
    (0..h).flat_map(move |z| (0..w).map(move |x| (x, z)))
}

/// Each span takes the least of itself, its two neighbours plus 2, and a neighbour of each plus 3.
fn pass(
    model: Model,
    spans: &Spans,
    raw: &mut [u32],
    places: Vec<(usize, usize)>,
    layers_upward: bool,
    ways: [(usize, usize); 2],
) {
    let before = raw.to_vec();
    for (x, z) in places {
        let mut layers: Vec<_> = spans.layers(x, z).collect();
        if !layers_upward {
            layers.reverse();
        }
        for span in layers {
            let mut least = raw[span];
            let mut take = |other: Option<usize>, cost| {
                if let Some(other) = other {
                    let other_area = spans.area(other) != spans.area(span);
                    if !(model.has(Mistake::PassLooksAtAreas) && other_area) {
                        let from_before = model.has(Mistake::PassFromBefore);
                        let value = if from_before {
                            before[other]
                        } else {
                            raw[other]
                        };
                        least = least.min(value + cost);
                    }
                }
            };
            for (d, then) in ways {
                let neighbour = spans.neighbour(span, d);
                let mut corner = neighbour.and_then(|other| spans.neighbour(other, then));
                if model.has(Mistake::PassCornersRound) && neighbour.is_none() {
                    let round = spans.neighbour(span, then);
                    corner = round.and_then(|other| spans.neighbour(other, d));
                }
                take(neighbour, 2);
                if !model.has(Mistake::PassWithoutCorners) {
                    let four = model.has(Mistake::PassCornerFour);
                    take(corner, if four { 4 } else { 3 });
                }
            }
            raw[span] = least;
        }
    }
}

/// A raw value c of at most 2 stays. Otherwise (c + eight terms + 5) / 9, rounded down, the terms being each
/// direction's neighbour and corner neighbour; a missing corner counts as c, a missing neighbour as 2c for both.
fn blur(model: Model, spans: &Spans, raw: &[u32]) -> Vec<u32> {
    let stays = match model.mistake {
        Some(Mistake::BlurFromTwo) => 1,
        Some(Mistake::BlurFromFour) => 3,
        _ => 2,
    };
    let added = match model.mistake {
        Some(Mistake::BlurRoundsDown) => 0,
        Some(Mistake::BlurRoundsToNearest) => 4,
        Some(Mistake::BlurRoundsUp) => 8,
        _ => 5,
    };
    let mut read = raw.to_vec();
    let mut blurred = Vec::with_capacity(raw.len());
    for span in 0..raw.len() {
        let c = raw[span];
        if c <= stays {
            blurred.push(c);
            continue;
        }
        let terms: u32 = (0..4)
            .map(|d| two_terms(model, spans, &read, span, d))
            .sum();
        blurred.push((c + terms + added) / 9);
        if model.has(Mistake::BlurInPlace) {
            read[span] = blurred[span];
        }
    }
    blurred
}

/// The neighbour and the corner neighbour of a direction.
fn two_terms(model: Model, spans: &Spans, raw: &[u32], span: usize, d: usize) -> u32 {
    let c = raw[span];
    let seen = |other: &usize| {
        !model.has(Mistake::BlurLooksAtAreas) || spans.area(*other) == spans.area(span)
    };
    let Some(neighbour) = spans.neighbour(span, d).filter(seen) else {
        return match model.mistake {
            Some(Mistake::BlurMissingNeighbourOnce) => c,
            Some(Mistake::BlurMissingNeighbourZero) => 0,
            _ => 2 * c,
        };
    };
    let turn = if model.has(Mistake::BlurCornerOtherTurn) {
        3
    } else {
        1
    };
    let missing_corner = match model.mistake {
        Some(Mistake::BlurMissingCornerZero) => 0,
        Some(Mistake::BlurMissingCornerNeighbour) => raw[neighbour],
        _ => c,
    };
    let corner = spans.neighbour(neighbour, d + turn).filter(seen);
    raw[neighbour] + corner.map_or(missing_corner, |corner| raw[corner])
}
