//! Files at the limits of the format and one past them, and files with two faults, of which the first is told.

use crate::{
    field::{Case, Field, NONE, Settings},
    file::{self, Record},
};

const ALONE: [u8; 4] = [NONE; 4];

pub fn files() -> Vec<Vec<u8>> {
    let mut files = Vec::new();
    files.extend(figures().iter().map(file::write));
    files.extend(sides());
    files.extend(cells());
    files.extend(spans());
    files.extend(counts());
    files.extend(connections());
    files.extend(two_faults());
    files.extend(malformed());
    files
}

/// Document 01's figures that fit a file.
fn figures() -> Vec<Case> {
    let open = |w, h, [border_size, least_area, merge_area]: [u16; 3]| Case {
        field: Field::open(w, h),
        settings: Settings {
            border_size,
            least_area,
            merge_area,
        },
    };
    let mut no_area = open(3, 3, [0, 0, 0]);
    no_area.field.area = vec![0; 9];
    let mut two_areas = open(6, 3, [0, 0, 20]);
    for (span, area) in two_areas.field.area.iter_mut().enumerate() {
        *area = if span % 6 < 3 { 1 } else { 2 };
    }
    vec![
        open(0, 0, [0, 0, 0]),
        open(0, 0, [1, 0, 0]),
        open(1, 1, [0, 0, 0]),
        open(1, 1, [1, 0, 0]),
        open(3, 3, [0, 0, 0]),
        open(3, 3, [0, 9, 0]),
        open(3, 3, [0, 10, 0]),
        no_area,
        open(5, 5, [0, 0, 0]),
        open(5, 5, [1, 0, 0]),
        open(7, 7, [0, 0, 0]),
        two_areas,
    ]
}

/// Records of a grid that holds nothing.
fn empty(w: u16, h: u16) -> Vec<Record> {
    let mut records = header(w, h);
    let cells = usize::from(w) * usize::from(h);
    records.extend(vec![Record::Cell { count: 0 }; cells]);
    records.push(Record::End);
    records
}

fn header(w: u16, h: u16) -> Vec<Record> {
    vec![Record::Header {
        w,
        h,
        settings: Settings::default(),
    }]
}

/// Records of cells in one row, each with spans of area 1 of these connections.
fn row(cells: &[&[[u8; 4]]]) -> Vec<Record> {
    let mut records = header(cells.len() as u16, 1);
    for &spans in cells {
        records.push(Record::Cell {
            count: spans.len() as u8,
        });
        records.extend(spans.iter().map(|&con| Record::Span { area: 1, con }));
    }
    records.push(Record::End);
    records
}

fn sides() -> Vec<Vec<u8>> {
    let grids = [
        (256, 1),
        (1, 256),
        (257, 1),
        (1, 257),
        (0, 3),
        (3, 0),
        (0, 256),
        (256, 0),
        (0, 257),
        (257, 0),
        (0, u16::MAX),
        (u16::MAX, 0),
    ];
    grids.map(|(w, h)| file::encode(&empty(w, h))).to_vec()
}

fn cells() -> Vec<Vec<u8>> {
    let header_of = |w, h| file::encode(&header(w, h));
    vec![
        file::encode(&empty(32, 32)),
        file::encode(&empty(4, 256)),
        file::encode(&empty(41, 25)),
        file::encode(&empty(5, 205)),
        header_of(41, 25),
        header_of(256, 256),
        header_of(u16::MAX, u16::MAX),
        // Cut short in the header: not yet too many cells.
        header_of(u16::MAX, u16::MAX)[..10].to_vec(),
        [header_of(41, 25), vec![9]].concat(),
    ]
}

fn spans() -> Vec<Vec<u8>> {
    let lone = |number: usize| vec![ALONE; number];
    let of = |numbers: &[usize]| {
        let columns: Vec<_> = numbers.iter().map(|&number| lone(number)).collect();
        let cells: Vec<_> = columns.iter().map(Vec::as_slice).collect();
        file::encode(&row(&cells))
    };
    let full = of(&[63, 63, 63, 11]);
    let passed = of(&[63, 63, 63, 12]);
    let before_last_cell = 11 + 3 * (2 + 63 * 6);
    vec![
        // The cell that passes 200 is told at once; the file may end there, but not before its count.
        passed[..before_last_cell + 2].to_vec(),
        passed[..before_last_cell + 1].to_vec(),
        // A record of another kind where that cell should be.
        [&passed[..before_last_cell], &[3, 200, 0, 0, 0, 0, 4]].concat(),
        [&passed[..before_last_cell], &[4, 255]].concat(),
        [&passed[..before_last_cell + 2], &[9]].concat(),
        full,
        passed,
        // One cell that holds too many by itself.
        file::encode(&header(1, 1))
            .into_iter()
            .chain([2, 201])
            .collect(),
        file::encode(&header(1, 1))
            .into_iter()
            .chain([2, 200])
            .collect(),
    ]
}

fn counts() -> Vec<Vec<u8>> {
    [62, 63, 64, 65]
        .map(|count| file::encode(&row(&[&vec![ALONE; count]])))
        .to_vec()
}

fn connections() -> Vec<Vec<u8>> {
    let right = [NONE, NONE, 0, NONE];
    let left = [0, NONE, NONE, NONE];
    let rows: Vec<Vec<Record>> = vec![
        row(&[&[right], &[left]]),
        // No answer, and an answer that leads to another layer.
        row(&[&[right], &[ALONE]]),
        row(&[&[ALONE], &[left]]),
        row(&[&[right, ALONE], &[[1, NONE, NONE, NONE]]]),
        row(&[&[right, right], &[left]]),
        row(&[&[[NONE, NONE, 1, NONE], right], &[left, left]]),
        // A layer just past the last, and one far past it.
        row(&[&[[NONE, NONE, 1, NONE]], &[left]]),
        row(&[&[[NONE, NONE, 254, NONE]], &[left]]),
        row(&[&[right], &[]]),
        // Out of the grid, each side.
        row(&[&[left], &[ALONE]]),
        row(&[&[ALONE], &[right]]),
        row(&[&[[NONE, 0, NONE, NONE]]]),
        row(&[&[[NONE, NONE, NONE, 0]]]),
    ];
    let mut files: Vec<_> = rows.iter().map(|records| file::encode(records)).collect();
    // From the end of a row to the beginning of the next one, which would answer.
    for (w, h) in [(2, 2), (3, 2)] {
        let mut records = header(w, h);
        for cell in 0..w * h {
            let con = match cell {
                cell if cell == w - 1 => right,
                cell if cell == w => left,
                _ => ALONE,
            };
            records.push(Record::Cell { count: 1 });
            records.push(Record::Span { area: 1, con });
        }
        records.push(Record::End);
        files.push(file::encode(&records));
    }
    files
}

fn two_faults() -> Vec<Vec<u8>> {
    let out = [0, NONE, NONE, NONE];
    let unanswered = [NONE, NONE, 0, NONE];
    let high = vec![ALONE; 64];
    let mut wide: Vec<&[[u8; 4]]> = vec![&[]; 257];
    wide[0] = &[[0, NONE, NONE, NONE]];
    let mut wide_and_high = wide.clone();
    wide_and_high[0] = &high;
    let rows: Vec<Vec<Record>> = vec![
        // 6 before 5 in the order of the spans, and the other way round: 5.
        row(&[&[unanswered], &[ALONE], &[[NONE, NONE, 0, NONE]]]),
        row(&[&[out], &[unanswered], &[ALONE]]),
        // 4 and 5, 4 and 6.
        row(&[&[out], &high]),
        row(&[&[unanswered], &high]),
        // 1 and 5, 1 and 4.
        row(&wide),
        row(&wide_and_high),
    ];
    let mut files: Vec<_> = rows.iter().map(|records| file::encode(records)).collect();
    // A wrong connection and bytes after the end: 20.
    let mut spoilt = files[0].clone();
    spoilt.push(4);
    files.push(spoilt);
    // A side above 256 and no end: 20.
    let mut cut = file::encode(&empty(257, 1));
    cut.pop();
    files.push(cut);
    files
}

/// Each cause of 20, at the beginning, in the middle and at the end.
fn malformed() -> Vec<Vec<u8>> {
    let sound = file::write(&Case {
        field: Field::open(2, 1),
        settings: Settings::default(),
    });
    let places = [0, 11, 13, 19, 21, 27];
    let mut files = vec![Vec::new()];
    // Cut short before and in each record.
    for place in places {
        files.push(sound[..place].to_vec());
        files.push(sound[..place + 1].to_vec());
    }
    files.pop();
    // A record of another or of no kind.
    for place in places {
        for kind in [0, 1, 2, 3, 4, 5, 255] {
            if kind != sound[place] {
                let mut file = sound.clone();
                file[place] = kind;
                files.push(file);
            }
        }
    }
    // Bytes after the end.
    for byte in [0, 1, 4] {
        files.push([&sound[..], &[byte]].concat());
    }
    files
}
