//! What docs/DISTANCE.md says of the distance: its drawings are what the library gives, and so is its formula for open fields.

use gussetraft::{build_distance_field, Field, NO_CONNECTION};

const PAGE: &str = include_str!("../../../docs/DISTANCE.md");

/// A drawing: rows of cells, each with the values of its spans.
type Drawing = Vec<Vec<Vec<u16>>>;

/// The page's drawings of a kind, `raw` or `blurred`. A `#` is a cell without a span, a `/` stands between the spans of a cell.
fn drawings(kind: &str) -> Vec<Drawing> {
    let values = |cell: &str| {
        let spans = cell.split('/').filter(|&span| span != "#");
        spans.map(|span| span.parse().expect("a value")).collect()
    };
    let fence = format!("```{kind}\n");
    let blocks = PAGE.split(&fence).skip(1);
    blocks
        .map(|block| {
            let rows = block.lines().take_while(|&line| line != "```");
            rows.map(|row| row.split_whitespace().map(values).collect())
                .collect()
        })
        .collect()
}

/// The layer that layer `layer` of a cell of `count` spans leads to, in a cell of `across`: the layers of two cells of two
/// spans are crossed, elsewhere layer 0 leads to layer 0 and nothing to another.
fn leads_to(layer: u8, count: u8, across: u8) -> u8 {
    match (count, across, layer) {
        (2, 2, _) => 1 - layer,
        (_, 1.., 0) => 0,
        _ => NO_CONNECTION,
    }
}

/// The raw and blurred distances and the greatest raw one, of a field of area 1 with so many spans in each cell.
fn distances(counts: &[Vec<u8>]) -> (Vec<u16>, Vec<u16>, u16) {
    let (w, h) = (counts[0].len(), counts.len());
    let (mut index, mut con) = (Vec::new(), Vec::new());
    let mut n = 0;
    for z in 0..h {
        for x in 0..w {
            let count = counts[z][x];
            index.push(n);
            n += u32::from(count);
            for layer in 0..count {
                for (dx, dz) in [(-1, 0), (0, 1), (1, 0), (0, -1)] {
                    let column = x.checked_add_signed(dx).filter(|&x| x < w);
                    let row = z.checked_add_signed(dz).filter(|&z| z < h);
                    con.push(match (column, row) {
                        (Some(x), Some(z)) => leads_to(layer, count, counts[z][x]),
                        _ => NO_CONNECTION,
                    });
                }
            }
        }
    }
    let area = vec![1; n as usize];
    let field = Field {
        w: w.try_into().expect("a small field"),
        h: h.try_into().expect("a small field"),
        index: &index,
        count: &counts.concat(),
        area: &area,
        con: &con,
    };
    let (mut raw, mut blurred) = (vec![0; n as usize], vec![0; n as usize]);
    let most = build_distance_field(&field, &mut raw, &mut blurred).expect("a sound field");
    (raw, blurred, most)
}

fn counts(drawing: &Drawing) -> Vec<Vec<u8>> {
    let row = |row: &Vec<Vec<u16>>| row.iter().map(|cell| cell.len() as u8).collect();
    drawing.iter().map(row).collect()
}

#[test]
fn the_drawings_are_what_the_library_gives() {
    let (raw, blurred) = (drawings("raw"), drawings("blurred"));
    assert_eq!((raw.len(), blurred.len()), (3, 1));
    for drawing in raw {
        assert_eq!(distances(&counts(&drawing)).0, drawing.concat().concat());
    }
    for drawing in blurred {
        assert_eq!(distances(&counts(&drawing)).1, drawing.concat().concat());
    }
}

#[test]
fn an_open_field_counts_the_cells_to_its_nearest_side() {
    for (w, h) in [(1, 1), (3, 3), (9, 7), (4, 11), (40, 23), (256, 125)] {
        let (raw, blurred, most) = distances(&vec![vec![1; w]; h]);
        for z in 0..h {
            for x in 0..w {
                let least = x.min(z).min(w - 1 - x).min(h - 1 - z);
                assert_eq!(
                    usize::from(raw[z * w + x]),
                    2 * least,
                    "({x},{z}) of {w} by {h}"
                );
            }
        }
        assert!(blurred.iter().all(|&value| value <= most), "{w} by {h}");
    }
}
