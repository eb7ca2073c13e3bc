//! The levels: made from the oracle's kinds, and some whose number of spans can be chosen.

use oracle::{
    field::{Case, Field, Settings},
    levels::{self, Size},
};

/// Areas as a game sets them: removed below 8 by 8 spans, merged up to 20 by 20.
const SETTINGS: Settings = Settings {
    border_size: 0,
    least_area: 64,
    merge_area: 400,
};

/// Name, kind and seed of a level of the oracle's, each of some 31,000 spans.
const KINDS: [(&str, &str, u64); 12] = [
    ("open", "open", 71),
    ("terrain", "terrain", 97),
    ("buildings", "rooms", 8),
    ("buildings, border 4", "borders", 8),
    ("blocks", "blocks", 4),
    ("towers, 3 storeys", "towers", 105),
    ("spiral", "spiral", 20),
    ("spiral stairs, 53 layers", "helix", 3),
    ("corridor", "corridor", 36),
    ("noise", "random", 141),
    ("8 layers", "layers", 130),
    ("63 layers", "layers", 110),
];

/// Of the same kinds, levels of some 65,000 spans, or of as many as the kind has.
const FULL: [(&str, &str, u64); 12] = [
    ("open", "open", 0),
    ("terrain", "terrain", 78),
    ("buildings", "rooms", 28),
    ("buildings, border 4", "borders", 28),
    ("blocks", "blocks", 112),
    ("towers, 3 storeys", "towers", 32),
    ("spiral", "spiral", 51),
    ("spiral stairs, 53 layers", "helix", 60),
    ("corridor", "corridor", 51),
    ("noise", "random", 38),
    ("8 layers", "layers", 287),
    ("63 layers", "layers", 13),
];

/// The numbers of spans that show how cost grows.
const STEPS: [usize; 6] = [2_000, 4_000, 8_000, 16_000, 32_000, 65_000];

/// Levels of some 31,000 spans, by name; the last three have their own size.
pub fn large() -> Vec<(String, Case)> {
    let mut all: Vec<_> = KINDS
        .iter()
        .map(|&(name, kind, seed)| (name.to_owned(), level_of(kind, Size::Medium, seed)))
        .collect();
    all.push(("passage".to_owned(), with_settings(passage(8_000))));
    all.push(("sparse".to_owned(), with_settings(sparse())));
    all.push(("halls, 3 layers".to_owned(), with_settings(halls())));
    all
}

/// Levels of some 65,000 spans, by name.
pub fn full() -> Vec<(String, Case)> {
    FULL.iter()
        .map(|&(name, kind, seed)| (name.to_owned(), level_of(kind, Size::Large, seed)))
        .collect()
}

/// A field of a number of spans.
type Shape = fn(usize) -> Field;

/// The same shapes with more and more spans.
pub fn growing() -> Vec<(String, Case)> {
    let shapes: [(&str, Shape); 3] = [
        ("open", open),
        ("buildings", buildings),
        ("passage", passage),
    ];
    let mut all = Vec::new();
    for (name, shape) in shapes {
        for n in STEPS {
            // the square of 32,000 takes a counter too long
            if name != "passage" || n <= 16_000 {
                all.push((format!("{name} {n}"), with_settings(shape(n))));
            }
        }
    }
    all
}

fn level_of(kind: &str, size: Size, seed: u64) -> Case {
    let kind = levels::kind(kind).expect("a kind of the oracle");
    let mut case = kind.make(size, seed);
    case.settings = Settings {
        border_size: if case.settings.border_size > 0 && kind.name == "borders" {
            4
        } else {
            0
        },
        ..SETTINGS
    };
    case
}

fn with_settings(field: Field) -> Case {
    Case {
        field,
        settings: SETTINGS,
    }
}

/// Nearly a square.
fn open(n: usize) -> Field {
    flat(n, n.isqrt() as u16, |_, _| true)
}

/// Rooms of 7 by 7 with a door to the right and one below; in two storeys where one would not be on the grid.
pub(crate) fn buildings(n: usize) -> Field {
    let w = (n * 5 / 4).isqrt();
    if w > 256 {
        return storeys(2, buildings(n / 2));
    }
    flat(n, w as u16, |x, z| match (x % 8, z % 8) {
        (7, 7) => false,
        (7, along) | (along, 7) => along == 3,
        _ => true,
    })
}

/// A hall of 12 by 12, and from it a passage one cell wide, folded: the region of the hall goes on through the passage one cell a
/// round.
fn passage(n: usize) -> Field {
    flat(n, (2 * n).isqrt().min(256) as u16, |x, z| {
        if z < 12 {
            return x < 12;
        }
        let (fold, wall) = ((z - 12) / 2, z % 2 == 1);
        let last = (2 * n).isqrt().min(256) as u16 - 1;
        !wall || x == if fold % 2 == 0 { last } else { 0 }
    })
}

/// Platforms of 8 by 8 with nothing between them: some 30 cells a span.
fn sparse() -> Field {
    flat(32_000, 256, |x, z| x % 44 < 8 && z % 44 < 8)
}

/// Halls of 50 by 50 with wide doors, three storeys of them: large rooms, few regions.
fn halls() -> Field {
    storeys(
        3,
        flat(10_400, 103, |x, z| {
            let door = |along: u16| (20..30).contains(&(along % 51));
            match (x % 51, z % 51) {
                (50, 50) => false,
                (50, _) => door(z),
                (_, 50) => door(x),
                _ => true,
            }
        }),
    )
}

/// The same floor so many times over itself.
fn storeys(layers: u8, ground: Field) -> Field {
    let mut field = Field {
        w: ground.w,
        h: ground.h,
        ..Field::default()
    };
    let mut span = 0;
    for &count in &ground.count {
        field.index.push(field.area.len() as u32);
        field.count.push(layers * count);
        if count == 1 {
            for layer in 0..layers {
                field.area.push(ground.area[span]);
                let joined = |&con: &u8| if con == 255 { 255 } else { layer };
                field
                    .con
                    .extend(ground.con[4 * span..][..4].iter().map(joined));
            }
            span += 1;
        }
    }
    field
}

/// Rows of w cells until there are n spans, one to a cell where there is a floor, all joined.
fn flat(n: usize, w: u16, floor: impl Fn(u16, u16) -> bool) -> Field {
    let mut field = Field {
        w,
        ..Field::default()
    };
    let mut room = n;
    'rows: for z in 0..256 {
        for x in 0..w {
            if room == 0 && x == 0 {
                break 'rows;
            }
            let there = room > 0 && floor(x, z);
            field.index.push((n - room) as u32);
            field.count.push(u8::from(there));
            room -= usize::from(there);
        }
        field.h += 1;
    }
    field.area = vec![1; n - room];
    for cell in 0..field.cells() {
        if field.count[cell] == 1 {
            for d in 0..4 {
                let joined = field
                    .cell_beside(cell, d)
                    .is_some_and(|beside| field.count[beside] == 1);
                field.con.push(if joined { 0 } else { 255 });
            }
        }
    }
    field
}
