//! The shapes of the fields.

use super::{Size, draft::Draft};
use crate::{field::Field, rng::Rng};

pub fn open(rng: &mut Rng, size: Size) -> Field {
    flat(size, size.grid(rng, size.limits().spans), |_, _| Some(1))
}

pub fn tiny(rng: &mut Rng, size: Size) -> Field {
    let grid = (rng.within(0..=4) as u16, rng.within(0..=4) as u16);
    let most_layers = rng.within(1..=3);
    tangle(rng, size, grid, most_layers)
}

pub fn random(rng: &mut Rng, size: Size) -> Field {
    let most_layers = rng.within(1..=4);
    let grid = size.grid(rng, size.limits().spans / most_layers);
    tangle(rng, size, grid, most_layers)
}

/// Any number of layers in each cell, joined at random.
fn tangle(rng: &mut Rng, size: Size, grid: (u16, u16), most_layers: usize) -> Field {
    let least_layers = rng.within(0..=1);
    let odd = rng.pick(&[0, 3, 10, 30]);
    let joined = rng.pick(&[70, 90, 97, 100]);
    let mut draft = Draft::new(grid, size.limits().spans);
    for place in draft.places() {
        for _ in 0..rng.within(least_layers..=most_layers) {
            let area = area_with_odd(rng, odd);
            draft.put(place, 0, area);
        }
    }
    draft.join_at_random(rng, joined);
    draft.finish()
}

pub fn layers(rng: &mut Rng, size: Size) -> Field {
    let layers = rng.pick(&[2, 3, 5, 8, 13, 21, 34, 63]);
    let (holes, odd) = (rng.pick(&[0, 3, 10]), rng.within(0..=5));
    let mut draft = Draft::new(
        size.grid(rng, size.limits().spans / layers),
        size.limits().spans,
    );
    for place in draft.places() {
        for layer in 0..layers {
            if !rng.chance(holes) {
                let area = area_with_odd(rng, odd);
                draft.put(place, layer as i32, area);
            }
        }
    }
    draft.join_within(0);
    draft.finish()
}

/// Area 1, and in so many of a hundred cases another.
fn area_with_odd(rng: &mut Rng, percent: usize) -> u8 {
    if rng.chance(percent) {
        rng.pick(&[0, 2, 255])
    } else {
        1
    }
}

pub fn rooms(rng: &mut Rng, size: Size) -> Field {
    let pitch = rng.within(4..=9) as u16;
    let wall = rng.pick(&[None, Some(0), Some(9)]);
    let doors: [u16; 7] = std::array::from_fn(|_| rng.within(1..=usize::from(pitch) - 1) as u16);
    let areas = rng.pick(&[[1, 1, 1], [1, 1, 2], [1, 2, 3]]);
    let grid = size.grid(rng, size.limits().spans * 5 / 4);
    flat(size, grid, |x, z| {
        let room = usize::from(x / pitch) * 2 + usize::from(z / pitch) * 3;
        let door = doors[room % doors.len()];
        let floor = Some(areas[room % areas.len()]);
        match (x % pitch, z % pitch) {
            (0, 0) => wall,
            (0, along) | (along, 0) => {
                if along == door {
                    floor
                } else {
                    wall
                }
            }
            _ => floor,
        }
    })
}

pub fn blocks(rng: &mut Rng, size: Size) -> Field {
    let (w, h) = size.grid(rng, size.limits().spans * 5 / 4);
    let number = rng.within(1..=usize::from(w) * usize::from(h) / 20 + 1);
    let blocks: Vec<_> = (0..number).map(|_| Block::new(rng, w, h)).collect();
    flat(size, (w, h), |x, z| {
        blocks
            .iter()
            .find(|block| block.holds(x, z))
            .map_or(Some(1), |block| block.area)
    })
}

struct Block {
    x: u16,
    z: u16,
    w: u16,
    h: u16,
    area: Option<u8>,
}

impl Block {
    fn new(rng: &mut Rng, w: u16, h: u16) -> Self {
        Self {
            x: rng.within(0..=usize::from(w) - 1) as u16,
            z: rng.within(0..=usize::from(h) - 1) as u16,
            w: rng.within(1..=4) as u16,
            h: rng.within(1..=4) as u16,
            area: rng.pick(&[None, None, Some(0), Some(1), Some(2)]),
        }
    }

    fn holds(&self, x: u16, z: u16) -> bool {
        (self.x..self.x + self.w).contains(&x) && (self.z..self.z + self.h).contains(&z)
    }
}

pub fn towers(rng: &mut Rng, size: Size) -> Field {
    /// Two storeys are so far apart, and the stairs climb two a cell.
    const STOREY: i32 = 8;
    const STEPS: u16 = 4;

    let storeys = rng.within(2..=6) as i32;
    let (w, h) = size.grid(rng, size.limits().spans / storeys as usize);
    let h = h.max(STEPS + 2);
    let stairs = 0..rng.within(1..=usize::from(w)) as u16;
    let areas = [1, rng.pick(&[1, 1, 2])];
    let holes = rng.pick(&[0, 3, 8]);
    let mut draft = Draft::new((w, h), size.limits().spans);
    for (x, z) in draft.places() {
        let on_stairs = stairs.contains(&x) && (1..=STEPS).contains(&z);
        for storey in 0..storeys {
            let climbed = if on_stairs { 2 * i32::from(z) } else { 0 };
            let past_top = on_stairs && storey == storeys - 1;
            if !past_top && !rng.chance(holes) {
                draft.put(
                    (x, z),
                    storey * STOREY + climbed,
                    areas[storey as usize % areas.len()],
                );
            }
        }
    }
    draft.join_within(2);
    draft.finish()
}

pub fn spiral(rng: &mut Rng, size: Size) -> Field {
    let lane = rng.pick(&[1, 2, 3, 3, 4, 5, 6]);
    let (w, h) = size.grid(rng, size.limits().spans * 3 / 2);
    let middle = h / 2;
    flat(size, (w, h), |x, z| {
        let depth = x.min(z).min(w - 1 - x).min(h - 1 - z);
        let (ring, in_ring) = (depth / (lane + 1), depth % (lane + 1));
        let left = x < w / 2;
        let is_cut = left && z == middle;
        let beside_cut = if ring % 2 == 0 {
            z > middle
        } else {
            z < middle
        };
        let is_gap = left && beside_cut && z.abs_diff(middle) <= lane;
        (!is_cut && (in_ring < lane || is_gap)).then_some(1)
    })
}

pub fn helix(rng: &mut Rng, size: Size) -> Field {
    /// A turn climbs so much, a quarter of it in each quadrant.
    const TURN: i32 = 16;

    let hole = rng.within(0..=2);
    let radius = hole
        + match size {
            Size::Small => rng.within(1..=4),
            Size::Medium | Size::Large => rng.within(3..=18),
        };
    let side = 2 * radius as u16 + 1;
    let (hole, radius) = (hole as i32, radius as i32);
    let holes = rng.pick(&[0, 3, 8, 12]);
    let mut draft = Draft::new((side, side), size.limits().spans);
    for turn in 0..60 {
        for (x, z) in draft.places() {
            let (dx, dz) = (i32::from(x) - radius, i32::from(z) - radius);
            if dx.abs().max(dz.abs()) > hole && !rng.chance(holes) {
                draft.put((x, z), turn * TURN + quadrant_height(dx, dz, TURN / 4), 1);
            }
        }
    }
    draft.join_within(2);
    draft.finish()
}

/// How high a turn has climbed at a place around its middle, each quadrant adding the same.
fn quadrant_height(dx: i32, dz: i32, quadrant: i32) -> i32 {
    let (full, part) = match (dx >= 0, dz >= 0) {
        (true, true) => (0, dz),
        (false, true) => (1, -dx),
        (false, false) => (2, -dz),
        (true, false) => (3, dx),
    };
    quadrant * full + quadrant * part / (dx.abs() + dz.abs())
}

pub fn corridor(rng: &mut Rng, size: Size) -> Field {
    let lane = rng.pick(&[1, 2, 3, 3, 4, 5, 6]);
    let (w, h) = size.grid(rng, size.limits().spans * 5 / 4);
    flat(size, (w, h), |x, z| {
        let (fold, in_fold) = (z / (lane + 1), z % (lane + 1));
        let from_end = if fold % 2 == 0 { w - 1 - x } else { x };
        (in_fold < lane || from_end < lane).then_some(1)
    })
}

pub fn terrain(rng: &mut Rng, size: Size) -> Field {
    /// The hills are drawn through points so far apart.
    const STEP: u16 = 4;

    let (steepest, climb, holes) = (
        rng.within(2..=16),
        rng.within(0..=2) as i32,
        rng.within(0..=6),
    );
    let (w, h) = size.grid(rng, size.limits().spans);
    let across = usize::from(w / STEP) + 2;
    let points: Vec<i32> = (0..across * (usize::from(h / STEP) + 2))
        .map(|_| rng.within(0..=steepest) as i32)
        .collect();
    let swamp = rng.within(0..=3) as i32;
    let mut draft = Draft::new((w, h), size.limits().spans);
    for (x, z) in draft.places() {
        let corner = usize::from(x / STEP) + usize::from(z / STEP) * across;
        let corners = [corner, corner + 1, corner + across, corner + across + 1].map(|i| points[i]);
        let height = blend(
            corners,
            i32::from(x % STEP),
            i32::from(z % STEP),
            i32::from(STEP),
        );
        if !rng.chance(holes) {
            draft.put((x, z), height, if height < swamp { 2 } else { 1 });
        }
    }
    draft.join_within(climb);
    draft.finish()
}

/// The height between four corners.
fn blend([near_left, near_right, far_left, far_right]: [i32; 4], x: i32, z: i32, step: i32) -> i32 {
    let near = near_left * (step - x) + near_right * x;
    let far = far_left * (step - x) + far_right * x;
    (near * (step - z) + far * z) / (step * step)
}

/// One layer at most, every two neighbours joined; a cell is empty where no area is given.
fn flat(size: Size, grid: (u16, u16), area_at: impl Fn(u16, u16) -> Option<u8>) -> Field {
    let mut draft = Draft::new(grid, size.limits().spans);
    for (x, z) in draft.places() {
        if let Some(area) = area_at(x, z) {
            draft.put((x, z), 0, area);
        }
    }
    draft.join_within(0);
    draft.finish()
}
