//! Files that are refused, each for one reason.

use crate::{
    field::{Case, DIRECTIONS, Field, NONE, Settings},
    file::{self, Limits, Record},
    levels::{KINDS, Size},
    refusals::Refusal,
    rng::Rng,
};
use std::mem::discriminant;

/// A reason to be refused.
#[derive(Debug, Clone, Copy)]
pub struct Damage {
    /// The name, as given to the program `make`.
    pub name: &'static str,
    /// What is wrong, in a few words.
    pub about: &'static str,
    /// What the file is refused with.
    pub refusal: Refusal,
    file: fn(&mut Rng) -> Vec<u8>,
}

impl Damage {
    const fn new(
        name: &'static str,
        about: &'static str,
        refusal: Refusal,
        file: fn(&mut Rng) -> Vec<u8>,
    ) -> Self {
        Self {
            name,
            about,
            refusal,
            file,
        }
    }

    /// The file of a seed.
    pub fn make(&self, seed: u64) -> Vec<u8> {
        (self.file)(&mut Rng::new(seed))
    }
}

/// Every reason that a file can give.
pub const DAMAGES: [Damage; 11] = [
    Damage::new(
        "grid-too-large",
        "a side above 256",
        Refusal::GridTooLarge,
        grid_too_large,
    ),
    Damage::new(
        "cell-too-high",
        "a cell of 64 spans or more",
        Refusal::WrongCells,
        cell_too_high,
    ),
    Damage::new(
        "leaves-grid",
        "a connection out of the grid",
        Refusal::ConnectionAstray,
        leaves_grid,
    ),
    Damage::new(
        "missing-layer",
        "a connection to a layer that is not there",
        Refusal::ConnectionAstray,
        missing_layer,
    ),
    Damage::new(
        "unanswered",
        "a connection in one direction only",
        Refusal::ConnectionUnanswered,
        unanswered,
    ),
    Damage::new(
        "unknown-kind",
        "a record of no known kind",
        Refusal::BadFile,
        unknown_kind,
    ),
    Damage::new(
        "out-of-place",
        "a record that doesn't belong there",
        Refusal::BadFile,
        out_of_place,
    ),
    Damage::new(
        "cut-short",
        "the end is missing",
        Refusal::BadFile,
        cut_short,
    ),
    Damage::new(
        "bytes-after",
        "bytes after the end",
        Refusal::BadFile,
        bytes_after,
    ),
    Damage::new(
        "too-many-cells",
        "a header of over 1,024 cells",
        Refusal::FileTooLarge,
        too_many_cells,
    ),
    Damage::new(
        "too-many-spans",
        "a cell that passes 200 spans",
        Refusal::FileTooLarge,
        too_many_spans,
    ),
];

/// The damage of a name.
pub fn damage(name: &str) -> Option<&'static Damage> {
    DAMAGES.iter().find(|damage| damage.name == name)
}

/// A sound file with a few bytes overwritten, whatever comes of it.
pub fn spoilt(seed: u64) -> Vec<u8> {
    let mut rng = Rng::new(seed);
    let kind = rng.pick(&KINDS);
    let mut file = file::write(&kind.make(Size::Small, rng.number()));
    for _ in 0..rng.within(1..=3) {
        let place = rng.within(0..=file.len() - 1);
        file[place] = rng.pick(&[0, 1, 2, 3, 4, 5, 64, 255]);
    }
    file
}

/// A sound case of any kind.
fn sound_case(rng: &mut Rng) -> Case {
    let kind = rng.pick(&KINDS);
    kind.make(Size::Small, rng.number())
}

/// A sound case with one of its connection bytes overwritten. The sides offered are pairs of a place in the list of
/// connections and the least wrong layer there.
fn with_wrong_side(rng: &mut Rng, sides: fn(&Field) -> Vec<(usize, u8)>) -> Vec<u8> {
    loop {
        let mut case = sound_case(rng);
        let found = sides(&case.field);
        if !found.is_empty() {
            let (place, least) = rng.pick(&found);
            case.field.con[place] = rng.within(usize::from(least)..=usize::from(NONE) - 1) as u8;
            return file::write(&case);
        }
    }
}

fn leaves_grid(rng: &mut Rng) -> Vec<u8> {
    with_wrong_side(rng, |field| {
        sides(field, |beside| beside.is_none().then_some(0))
    })
}

fn missing_layer(rng: &mut Rng) -> Vec<u8> {
    with_wrong_side(rng, |field| {
        sides(field, |beside| beside.map(|cell| field.count[cell]))
    })
}

/// The sides of all spans for which the cell beside, if any, has a least wrong layer.
fn sides(field: &Field, least_wrong: impl Fn(Option<usize>) -> Option<u8>) -> Vec<(usize, u8)> {
    let mut sides = Vec::new();
    for cell in 0..field.cells() {
        for span in field.spans_in(cell) {
            for d in DIRECTIONS {
                sides.extend(
                    least_wrong(field.cell_beside(cell, d)).map(|least| (4 * span + d, least)),
                );
            }
        }
    }
    sides
}

fn unanswered(rng: &mut Rng) -> Vec<u8> {
    loop {
        let mut case = sound_case(rng);
        let con = &mut case.field.con;
        let joined: Vec<_> = (0..con.len()).filter(|&place| con[place] != NONE).collect();
        if !joined.is_empty() {
            con[rng.pick(&joined)] = NONE;
            return file::write(&case);
        }
    }
}

fn grid_too_large(rng: &mut Rng) -> Vec<u8> {
    let long = rng.within(257..=1_024);
    let short = rng.within(0..=Limits::PROGRAM.cells / long);
    let (w, h) = rng.pick(&[(long, short), (short, long)]);
    file::encode(&empty_cells(w as u16, h as u16))
}

fn cell_too_high(rng: &mut Rng) -> Vec<u8> {
    let (w, h) = (rng.within(1..=5), rng.within(1..=5));
    let mut records = empty_cells(w as u16, h as u16);
    let cell = 1 + rng.within(0..=w * h - 1);
    let count = rng.within(64..=Limits::PROGRAM.spans);
    records[cell] = Record::Cell { count: count as u8 };
    let spans = vec![
        Record::Span {
            area: 1,
            con: [NONE; 4]
        };
        count
    ];
    records.splice(cell + 1..cell + 1, spans);
    file::encode(&records)
}

fn empty_cells(w: u16, h: u16) -> Vec<Record> {
    let mut records = vec![Record::Header {
        w,
        h,
        settings: Settings::default(),
    }];
    records.extend(vec![
        Record::Cell { count: 0 };
        usize::from(w) * usize::from(h)
    ]);
    records.push(Record::End);
    records
}

fn unknown_kind(rng: &mut Rng) -> Vec<u8> {
    let records = file::records(&sound_case(rng));
    let before = rng.within(0..=records.len() - 1);
    let place = file::encode(&records[..before]).len();
    let mut bytes = file::encode(&records);
    bytes[place] = rng.pick(&[0, 5, 6, 128, 255]);
    bytes
}

fn out_of_place(rng: &mut Rng) -> Vec<u8> {
    let mut records = file::records(&sound_case(rng));
    let place = rng.within(0..=records.len() - 1);
    let strange: Vec<_> = [
        Record::Header {
            w: 1,
            h: 1,
            settings: Settings::default(),
        },
        Record::Cell {
            count: rng.pick(&[0, 1, 255]),
        },
        Record::Span {
            area: 1,
            con: [NONE; 4],
        },
        Record::End,
    ]
    .into_iter()
    .filter(|record| discriminant(record) != discriminant(&records[place]))
    .collect();
    records.insert(place, rng.pick(&strange));
    file::encode(&records)
}

fn cut_short(rng: &mut Rng) -> Vec<u8> {
    let mut bytes = file::write(&sound_case(rng));
    bytes.truncate(rng.within(0..=bytes.len() - 1));
    bytes
}

fn bytes_after(rng: &mut Rng) -> Vec<u8> {
    let mut bytes = file::write(&sound_case(rng));
    bytes.extend((0..rng.within(1..=8)).map(|_| rng.number() as u8));
    bytes
}

fn too_many_cells(rng: &mut Rng) -> Vec<u8> {
    let w = rng.within(1..=usize::from(u16::MAX));
    let h = rng.within(Limits::PROGRAM.cells / w + 1..=usize::from(u16::MAX));
    let mut bytes = file::encode(&[Record::Header {
        w: w as u16,
        h: h as u16,
        settings: Settings::default(),
    }]);
    bytes.extend((0..rng.within(0..=8)).map(|_| rng.number() as u8));
    bytes
}

fn too_many_spans(rng: &mut Rng) -> Vec<u8> {
    loop {
        let mut records = file::records(&sound_case(rng));
        let is_cell = |&place: &usize| matches!(records[place], Record::Cell { .. });
        let cells: Vec<_> = (0..records.len()).filter(is_cell).collect();
        if !cells.is_empty() {
            let place = rng.pick(&cells);
            let is_span = |record: &&Record| matches!(record, Record::Span { .. });
            let spans_before = records[..place].iter().filter(is_span).count();
            let count = rng.within(Limits::PROGRAM.spans - spans_before + 1..=255);
            records[place] = Record::Cell { count: count as u8 };
            records.truncate(rng.within(place + 1..=records.len()));
            return file::encode(&records);
        }
    }
}
