//! Fields at the limits of the two entries: 65,000 spans, 256 by 256 cells, 63 layers.

use super::{draft::Draft, long_corridor};
use crate::{field::Field, rng::Rng};

const MOST_SPANS: usize = 65_000;
const MOST_LAYERS: usize = 63;

/// Open fields of nearly 65,000 spans: no grid within 256 by 256 has just so many cells.
pub fn largest_open(rng: &mut Rng) -> Field {
    let (w, h) = rng.pick(&[
        (256, 253),
        (253, 256),
        (255, 254),
        (254, 255),
        (256, 125),
        (160, 200),
    ]);
    Field::open(w, h)
}

/// 256 by 256 cells and exactly 65,000 spans: a floor with holes from the first row on, or spans strewn over all of it.
pub fn whole_grid(rng: &mut Rng) -> Field {
    let mut draft = Draft::new((256, 256), MOST_SPANS);
    let strewn = rng.chance(30);
    let (put, layers) = if strewn { (96, 1) } else { (96, 2) };
    let climb = rng.pick(&[0, 1, 3]);
    for place in draft.places() {
        for layer in 0..layers {
            if rng.chance(put) {
                let height = 10 * layer + rng.within(0..=1) as i32;
                let area = if rng.chance(2) { rng.pick(&[0, 2]) } else { 1 };
                draft.put(place, height, area);
            }
        }
    }
    // what strewing has left over lies in the last row
    for x in (0..256).cycle().take(MOST_SPANS) {
        draft.put((x, 255), 100, 1);
    }
    draft.join_within(climb);
    draft.finish()
}

/// 63 spans in every cell, as many cells as that allows; joined by layers, or at random.
pub fn highest(rng: &mut Rng) -> Field {
    let (w, h) = rng.pick(&[(13, 79), (79, 13), (32, 32), (4, 256), (256, 4)]);
    let mut draft = Draft::new((w, h), MOST_SPANS);
    let odd = rng.pick(&[0, 1, 5]);
    for place in draft.places() {
        for layer in 0..MOST_LAYERS {
            let area = if rng.chance(odd) {
                rng.pick(&[0, 2])
            } else {
                1
            };
            draft.put(place, layer as i32, area);
        }
    }
    match rng.within(0..=2) {
        0 => draft.join_within(0),
        1 => draft.join_within(1),
        _ => draft.join_at_random(rng, 98),
    }
    draft.finish()
}

/// Long corridors of any length that the limits allow.
pub fn any_corridor(rng: &mut Rng) -> Field {
    let w = rng.within(130..=256);
    let most = (250 * w).min(MOST_SPANS - 10);
    let length = rng.within(most / 3..=most);
    long_corridor(w, length)
}
