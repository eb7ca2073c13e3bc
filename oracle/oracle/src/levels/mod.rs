//! Fields of many kinds, made from a seed. None of them is refused.

pub mod at_limits;
mod draft;
pub mod edges;
mod long_corridor;
mod shapes;

use crate::{
    field::{Case, Field, Settings},
    file::Limits,
    rng::Rng,
};
pub use long_corridor::long_corridor;

/// How large a field is made.
#[derive(Debug, Clone, Copy, PartialEq, Eq)]
pub enum Size {
    /// Small enough for the program that reads files.
    Small,
    /// Up to 32,000 spans, where neither ids nor source distances can run out.
    Medium,
    /// Up to the limits of the two entries.
    Large,
}

impl Size {
    fn limits(self) -> Limits {
        match self {
            Self::Small => Limits::PROGRAM,
            Self::Medium => Limits {
                cells: 256 * 256,
                spans: 32_000,
            },
            Self::Large => Limits {
                cells: 256 * 256,
                spans: 65_000,
            },
        }
    }

    /// The sides of a grid of at most so many cells, seldom far from a square.
    fn grid(self, rng: &mut Rng, cells: usize) -> (u16, u16) {
        let cells = cells.min(self.limits().cells);
        let square = cells.isqrt();
        let w = rng.within(square.div_ceil(2)..=2 * square).min(256);
        let deepest = cells / w;
        let h = rng.within(deepest.div_ceil(2)..=deepest).min(256);
        (w as u16, h as u16)
    }
}

/// A kind of field.
#[derive(Debug, Clone, Copy)]
pub struct Kind {
    /// The name, as given to the program `make`.
    pub name: &'static str,
    /// What is in such a field, in a few words.
    pub about: &'static str,
    shape: fn(&mut Rng, Size) -> Field,
    border_percent: usize,
}

impl Kind {
    const fn new(
        name: &'static str,
        about: &'static str,
        shape: fn(&mut Rng, Size) -> Field,
    ) -> Self {
        Self {
            name,
            about,
            shape,
            border_percent: 20,
        }
    }

    const fn always_bordered(self) -> Self {
        Self {
            border_percent: 100,
            ..self
        }
    }

    /// The field of a seed, with settings.
    pub fn make(&self, size: Size, seed: u64) -> Case {
        let mut rng = Rng::new(seed);
        let field = (self.shape)(&mut rng, size);
        let settings = settings(&mut rng, self.border_percent);
        Case { field, settings }
    }
}

/// Every kind.
pub const KINDS: [Kind; 12] = [
    Kind::new("open", "one span a cell, all connected", shapes::open),
    Kind::new(
        "tiny",
        "up to 4 by 4 cells, also none, connected at random",
        shapes::tiny,
    ),
    Kind::new(
        "random",
        "random connections and areas, a few layers",
        shapes::random,
    ),
    Kind::new("layers", "up to 63 layers, with holes", shapes::layers),
    Kind::new("rooms", "rooms with doors", shapes::rooms),
    Kind::new("borders", "rooms with a painted border", shapes::rooms).always_bordered(),
    Kind::new(
        "blocks",
        "an open place with blocks of other areas or none",
        shapes::blocks,
    ),
    Kind::new("towers", "storeys joined by stairs", shapes::towers),
    Kind::new("spiral", "a path that winds inward", shapes::spiral),
    Kind::new(
        "helix",
        "a path that winds upward over itself",
        shapes::helix,
    ),
    Kind::new("corridor", "a long corridor, folded", shapes::corridor),
    Kind::new(
        "terrain",
        "hills that are too steep in places",
        shapes::terrain,
    ),
];

/// The kind of a name.
pub fn kind(name: &str) -> Option<&'static Kind> {
    KINDS.iter().find(|kind| kind.name == name)
}

fn settings(rng: &mut Rng, border_percent: usize) -> Settings {
    Settings {
        border_size: if rng.chance(border_percent) {
            rng.within(1..=4) as u16
        } else {
            0
        },
        least_area: up_to_one_of(rng, &[0, 0, 12, 60]),
        merge_area: up_to_one_of(rng, &[0, 12, 60, 600]),
    }
}

fn up_to_one_of(rng: &mut Rng, most: &[usize]) -> u16 {
    let most = rng.pick(most);
    rng.within(0..=most) as u16
}
