//! A picture of the regions, pixel for pixel what tools/picture draws of the listing, in the binary PPM format (P6).
//!
//! Each layer is a panel, the lowest at the left. A region has one colour in all layers, and no region that it touches has the same. Painted strips
//! (flagged ids) are hatched in grey, id 0 is dark, empty cells are black.

use crate::worker::Answer;
use gussetraft::BORDER;
use std::{
    collections::{BTreeMap, BTreeSet},
    io::{self, Write},
};

type Colour = [u8; 3];

const PALETTE: [Colour; 16] = [
    [230, 159, 0],
    [86, 180, 233],
    [0, 158, 115],
    [240, 228, 66],
    [30, 110, 200],
    [213, 94, 0],
    [204, 121, 167],
    [148, 216, 120],
    [160, 110, 240],
    [250, 190, 190],
    [90, 220, 210],
    [170, 130, 80],
    [255, 120, 120],
    [120, 140, 40],
    [190, 200, 255],
    [255, 210, 140],
];
const EMPTY: Colour = [0, 0, 0];
const NO_REGION: Colour = [48, 48, 56];
const GAP: Colour = [255, 255, 255];
const LIGHT: Colour = [150, 150, 150];
const DARK: Colour = [96, 96, 96];

/// Where each cell's ids are.
struct Panels<'a> {
    answer: &'a Answer<'a>,
    w: usize,
    h: usize,
}

impl Panels<'_> {
    /// The id at a place of a layer, if there is one.
    fn id_at(&self, layer: usize, x: usize, z: usize) -> Option<u16> {
        if x >= self.w || z >= self.h {
            return None;
        }
        let (field, cell) = (&self.answer.field, x + z * self.w);
        (layer < field.count[cell].into())
            .then(|| self.answer.ids[field.index[cell] as usize + layer])
    }

    fn region_at(&self, layer: usize, x: usize, z: usize) -> Option<u16> {
        self.id_at(layer, x, z)
            .filter(|&id| id != 0 && id & BORDER == 0)
    }

    /// For each region those that touch it, corners included.
    fn touching(&self, layers: usize) -> BTreeMap<u16, BTreeSet<u16>> {
        let mut touching: BTreeMap<u16, BTreeSet<u16>> = BTreeMap::new();
        for layer in 0..layers {
            for z in 0..self.h {
                for x in 0..self.w {
                    let Some(id) = self.region_at(layer, x, z) else {
                        continue;
                    };
                    touching.entry(id).or_default();
                    // left of column 0 there is nothing, as past the last
                    for (x, z) in [
                        (x + 1, z),
                        (x, z + 1),
                        (x + 1, z + 1),
                        (x.wrapping_sub(1), z + 1),
                    ] {
                        if let Some(other) =
                            self.region_at(layer, x, z).filter(|&other| other != id)
                        {
                            touching.entry(id).or_default().insert(other);
                            touching.entry(other).or_default().insert(id);
                        }
                    }
                }
            }
        }
        touching
    }
}

/// Of each region the first colour, from one that depends on the id on, that no region touching it has; where all sixteen are taken, the last of them.
fn colours(touching: &BTreeMap<u16, BTreeSet<u16>>) -> BTreeMap<u16, Colour> {
    let mut chosen: BTreeMap<u16, usize> = BTreeMap::new();
    for (&id, near) in touching {
        let mut tries = (0..PALETTE.len()).map(|i| (usize::from(id) * 5 + i) % PALETTE.len());
        let taken = |colour: &usize| near.iter().any(|other| chosen.get(other) == Some(colour));
        let colour = tries
            .find(|colour| !taken(colour))
            .unwrap_or((usize::from(id) * 5 + PALETTE.len() - 1) % PALETTE.len());
        chosen.insert(id, colour);
    }
    chosen
        .into_iter()
        .map(|(id, colour)| (id, PALETTE[colour]))
        .collect()
}

/// The picture with so many pixels a cell. The field has cells.
pub fn write(answer: &Answer<'_>, size: usize, out: &mut impl Write) -> io::Result<()> {
    let field = &answer.field;
    let panels = Panels {
        answer,
        w: field.w.into(),
        h: field.h.into(),
    };
    let layers = usize::from(field.count.iter().copied().max().unwrap_or(0)).max(1);
    let colours = colours(&panels.touching(layers));
    let colour = |id: Option<u16>, px: usize, py: usize| match id {
        None => EMPTY,
        Some(0) => NO_REGION,
        Some(id) if id & BORDER != 0 => {
            let down = if id % 2 == 1 { py } else { size - py };
            if (px + down) / 2 % 2 == 1 {
                LIGHT
            } else {
                DARK
            }
        }
        Some(id) => colours[&id],
    };
    let width = layers * panels.w * size + (layers - 1) * size;
    write!(out, "P6\n{width} {}\n255\n", panels.h * size)?;
    for z in 0..panels.h {
        for py in 0..size {
            for layer in 0..layers {
                for _ in 0..if layer > 0 { size } else { 0 } {
                    out.write_all(&GAP)?;
                }
                for x in 0..panels.w {
                    let id = panels.id_at(layer, x, z);
                    for px in 0..size {
                        out.write_all(&colour(id, px, py))?;
                    }
                }
            }
        }
    }
    Ok(())
}
