//! Reading and writing field files, and the refusals 20 and 21.

use oracle::{
    damage::DAMAGES,
    field::{Case, Field, Settings},
    file::{self, Limits, Record},
    levels::{KINDS, Size},
    listing,
    refusals::Refusal,
};

const CELL: Record = Record::Cell { count: 1 };
const SPAN: Record = Record::Span {
    area: 1,
    con: [255; 4],
};

fn header(w: u16, h: u16) -> Record {
    Record::Header {
        w,
        h,
        settings: Settings::default(),
    }
}

fn read(bytes: &[u8]) -> Result<Case, Refusal> {
    file::read(bytes, Limits::PROGRAM)
}

fn refusal_of(records: &[Record]) -> Option<Refusal> {
    read(&file::encode(records)).err()
}

/// One cell of one span.
fn sound() -> Vec<Record> {
    vec![header(1, 1), CELL, SPAN, Record::End]
}

#[test]
fn bytes_of_a_file() {
    let settings = Settings {
        border_size: 0x0102,
        least_area: 0x0304,
        merge_area: 0x0506,
    };
    let bytes = [
        1, 2, 0, 1, 0, 0x02, 0x01, 0x04, 0x03, 0x06, 0x05, // header
        2, 1, 3, 7, 255, 255, 0, 255, // cell (0,0)
        2, 2, 3, 8, 0, 255, 255, 255, 3, 9, 255, 255, 255, 255, // cell (1,0)
        4,
    ];
    let con = [[255, 255, 0, 255], [0, 255, 255, 255], [255; 4]].concat();
    let field = Field {
        w: 2,
        h: 1,
        index: vec![0, 1],
        count: vec![1, 2],
        area: vec![7, 8, 9],
        con,
    };
    let case = Case { field, settings };
    assert_eq!(file::write(&case), bytes);
    assert_eq!(read(&bytes), Ok(case));
}

#[test]
fn what_is_written_is_read() {
    for kind in &KINDS {
        for seed in 0..20 {
            let case = kind.make(Size::Small, seed);
            assert_eq!(read(&file::write(&case)), Ok(case), "{} {seed}", kind.name);
        }
    }
}

#[test]
fn large_files_are_read_without_limits() {
    let case = Case {
        field: Field::open(200, 150),
        settings: Settings::default(),
    };
    let bytes = file::write(&case);
    assert_eq!(read(&bytes), Err(Refusal::FileTooLarge));
    assert_eq!(file::read(&bytes, Limits::FORMAT), Ok(case));
}

#[test]
fn unknown_kinds() {
    let bytes = file::encode(&sound());
    let kind_places = [0, 11, 13, 19];
    for place in kind_places {
        for kind in [0, 5, 255] {
            let mut changed = bytes.clone();
            changed[place] = kind;
            assert_eq!(
                read(&changed),
                Err(Refusal::BadFile),
                "kind {kind} at {place}"
            );
        }
    }
}

#[test]
fn records_out_of_place() {
    let end = Record::End;
    let files: [&[Record]; 10] = [
        &[CELL, SPAN, end],
        &[end],
        &[header(1, 1), header(1, 1), CELL, SPAN, end],
        &[header(1, 1), SPAN, end],
        &[header(1, 1), end],
        &[header(1, 1), CELL, end],
        &[header(1, 1), CELL, SPAN, SPAN, end],
        &[header(1, 1), CELL, SPAN, CELL, SPAN, end],
        &[header(0, 0), CELL, SPAN, end],
        &[header(2, 1), CELL, CELL, SPAN, SPAN, end],
    ];
    for records in files {
        assert_eq!(refusal_of(records), Some(Refusal::BadFile), "{records:?}");
    }
}

#[test]
fn cut_short_anywhere() {
    let bytes = file::encode(&sound());
    assert_eq!(read(&bytes).err(), None);
    for len in 0..bytes.len() {
        assert_eq!(read(&bytes[..len]), Err(Refusal::BadFile), "{len} bytes");
    }
}

#[test]
fn bytes_after_the_end() {
    for after in 0..=255 {
        let mut bytes = file::encode(&sound());
        bytes.push(after);
        assert_eq!(read(&bytes), Err(Refusal::BadFile), "byte {after}");
    }
}

#[test]
fn cells_at_the_limit_and_past_it() {
    for (w, h) in [(32, 32), (1_024, 1), (1, 1_024), (0, u16::MAX)] {
        // The first cell is missing, so the header was taken.
        assert_eq!(
            refusal_of(&[header(w, h)]),
            Some(Refusal::BadFile),
            "{w} by {h}"
        );
    }
    for (w, h) in [(25, 41), (1_025, 1), (1, 1_025), (u16::MAX, u16::MAX)] {
        assert_eq!(
            refusal_of(&[header(w, h)]),
            Some(Refusal::FileTooLarge),
            "{w} by {h}"
        );
    }
}

#[test]
fn spans_at_the_limit_and_past_it() {
    let spans = |count: usize| vec![SPAN; count];
    let first = [vec![header(3, 1), Record::Cell { count: 150 }], spans(150)].concat();
    let at_limit = [
        first.clone(),
        vec![Record::Cell { count: 50 }],
        spans(50),
        vec![Record::Cell { count: 0 }],
    ]
    .concat();
    assert_eq!(
        refusal_of(&[at_limit.clone(), vec![Record::End]].concat()),
        None
    );
    // At the cell that passes it, even if the file ends there.
    assert_eq!(
        refusal_of(&[first.clone(), vec![Record::Cell { count: 51 }]].concat()),
        Some(Refusal::FileTooLarge)
    );
    assert_eq!(
        refusal_of(&[first, vec![Record::Cell { count: 50 }]].concat()),
        Some(Refusal::BadFile)
    );
    assert_eq!(
        refusal_of(&[header(1, 1), Record::Cell { count: 201 }]),
        Some(Refusal::FileTooLarge)
    );
    assert_eq!(
        refusal_of(&[header(1, 1), Record::Cell { count: 200 }]),
        Some(Refusal::BadFile)
    );
}

#[test]
fn first_met_in_the_file_is_given() {
    let full = Record::Cell { count: 255 };
    let too_many_cells = file::encode(&[header(33, 32)]);
    assert_eq!(
        read(&too_many_cells[..10]),
        Err(Refusal::BadFile),
        "a header cut short"
    );
    assert_eq!(
        refusal_of(&[header(33, 32), header(1, 1)]),
        Some(Refusal::FileTooLarge),
        "misplaced after it"
    );
    assert_eq!(
        refusal_of(&[header(2, 1), CELL, full]),
        Some(Refusal::BadFile),
        "a span belonged there"
    );
    assert_eq!(
        refusal_of(&[header(1, 1), CELL, SPAN, full]),
        Some(Refusal::BadFile),
        "the end belonged there"
    );
    assert_eq!(
        refusal_of(&[header(1, 1), full, Record::End]),
        Some(Refusal::FileTooLarge),
        "spans missing after it"
    );
    assert_eq!(
        read(&[1, 1, 0, 1, 0, 0, 0, 0, 0, 0, 0, 2]),
        Err(Refusal::BadFile),
        "a cell cut short"
    );
}

#[test]
fn file_is_refused_before_the_field() {
    let bytes = file::write(&Case {
        field: Field::open(257, 0),
        settings: Settings::default(),
    });
    assert_eq!(listing::answer(&bytes, Limits::PROGRAM), "refused 1\n");
    assert_eq!(
        listing::answer(&bytes[..bytes.len() - 1], Limits::PROGRAM),
        "refused 20\n"
    );
    // Wider than 256, too, but over 1,024 cells first.
    assert_eq!(
        listing::answer(&file::encode(&[header(300, 4)]), Limits::PROGRAM),
        "refused 21\n"
    );
}

#[test]
fn counts_of_64_are_read_and_then_refused() {
    let records = [
        vec![header(1, 1), Record::Cell { count: 64 }],
        vec![SPAN; 64],
        vec![Record::End],
    ]
    .concat();
    assert_eq!(refusal_of(&records), None);
    assert_eq!(
        listing::answer(&file::encode(&records), Limits::PROGRAM),
        "refused 4\n"
    );
}

#[test]
fn damaged_files_get_their_refusal() {
    for damage in &DAMAGES {
        for seed in 0..200 {
            let answer = listing::answer(&damage.make(seed), Limits::PROGRAM);
            assert_eq!(
                answer,
                format!("{}\n", damage.refusal),
                "{} {seed}",
                damage.name
            );
        }
    }
}
