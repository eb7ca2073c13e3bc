//! The record format of field files.

use crate::{
    field::{Case, Field, Settings},
    refusals::Refusal,
};

/// The kind byte of each record.
mod kind {
    pub const HEADER: u8 = 1;
    pub const CELL: u8 = 2;
    pub const SPAN: u8 = 3;
    pub const END: u8 = 4;
}

/// How large a field a reader takes.
#[derive(Debug, Clone, Copy)]
pub struct Limits {
    /// The most cells.
    pub cells: usize,
    /// The most spans.
    pub spans: usize,
}

impl Limits {
    /// The limits of document 01's program.
    pub const PROGRAM: Self = Self {
        cells: 1_024,
        spans: 200,
    };
    /// No limit but that of the format itself.
    pub const FORMAT: Self = Self {
        cells: usize::MAX,
        spans: usize::MAX,
    };
}

/// A record of a field file.
#[derive(Debug, Clone, Copy, PartialEq, Eq)]
pub enum Record {
    /// Width, height and settings.
    Header {
        /// The width.
        w: u16,
        /// The height.
        h: u16,
        /// The settings.
        settings: Settings,
    },
    /// A cell and how many spans follow it.
    Cell {
        /// How many spans the cell has.
        count: u8,
    },
    /// A span.
    Span {
        /// Its area.
        area: u8,
        /// Its connections.
        con: [u8; 4],
    },
    /// The end of the file.
    End,
}

impl Record {
    /// Appends the bytes of the record.
    pub fn encode(&self, bytes: &mut Vec<u8>) {
        match *self {
            Self::Header { w, h, settings } => {
                bytes.push(kind::HEADER);
                for number in [
                    w,
                    h,
                    settings.border_size,
                    settings.least_area,
                    settings.merge_area,
                ] {
                    bytes.extend(number.to_le_bytes());
                }
            }
            Self::Cell { count } => bytes.extend([kind::CELL, count]),
            Self::Span { area, con } => {
                bytes.extend([kind::SPAN, area]);
                bytes.extend(con);
            }
            Self::End => bytes.push(kind::END),
        }
    }
}

/// The records of a case whose lists fit each other.
pub fn records(case: &Case) -> Vec<Record> {
    let Case { field, settings } = case;
    let mut records = vec![Record::Header {
        w: field.w,
        h: field.h,
        settings: *settings,
    }];
    for cell in 0..field.cells() {
        records.push(Record::Cell {
            count: field.count[cell],
        });
        records.extend(field.spans_in(cell).map(|span| Record::Span {
            area: field.area[span],
            con: std::array::from_fn(|d| field.con[4 * span + d]),
        }));
    }
    records.push(Record::End);
    records
}

/// The bytes of records.
pub fn encode(records: &[Record]) -> Vec<u8> {
    let mut bytes = Vec::new();
    for record in records {
        record.encode(&mut bytes);
    }
    bytes
}

/// The file of a case whose lists fit each other.
pub fn write(case: &Case) -> Vec<u8> {
    encode(&records(case))
}

/// Reads a file, or gives the refusal (20 or 21) that is met first in it.
pub fn read(bytes: &[u8], limits: Limits) -> Result<Case, Refusal> {
    let mut reader = Reader { rest: bytes };
    let (w, h, settings) = reader.header()?;
    let mut field = Field {
        w,
        h,
        ..Field::default()
    };
    if field.cells() > limits.cells {
        return Err(Refusal::FileTooLarge);
    }
    for _ in 0..field.cells() {
        reader.cell(&mut field, limits)?;
    }
    let [] = reader.record(kind::END)?;
    if reader.rest.is_empty() {
        Ok(Case { field, settings })
    } else {
        Err(Refusal::BadFile)
    }
}

/// What is left of a file.
struct Reader<'a> {
    rest: &'a [u8],
}

impl Reader<'_> {
    fn header(&mut self) -> Result<(u16, u16, Settings), Refusal> {
        let body: [u8; 10] = self.record(kind::HEADER)?;
        let number = |i: usize| u16::from_le_bytes([body[2 * i], body[2 * i + 1]]);
        let settings = Settings {
            border_size: number(2),
            least_area: number(3),
            merge_area: number(4),
        };
        Ok((number(0), number(1), settings))
    }

    /// Reads a cell and its spans to the end of the field.
    fn cell(&mut self, field: &mut Field, limits: Limits) -> Result<(), Refusal> {
        let [count] = self.record(kind::CELL)?;
        if field.spans() + usize::from(count) > limits.spans {
            return Err(Refusal::FileTooLarge);
        }
        field.index.push(field.area.len() as u32);
        field.count.push(count);
        for _ in 0..count {
            let [area, con @ ..]: [u8; 5] = self.record(kind::SPAN)?;
            field.area.push(area);
            field.con.extend(con);
        }
        Ok(())
    }

    /// The body of the next record, which must be of the kind that belongs here.
    fn record<const LEN: usize>(&mut self, kind: u8) -> Result<[u8; LEN], Refusal> {
        let (&found, rest) = self.rest.split_first().ok_or(Refusal::BadFile)?;
        let (&body, rest) = rest.split_first_chunk().ok_or(Refusal::BadFile)?;
        self.rest = rest;
        if found == kind {
            Ok(body)
        } else {
            Err(Refusal::BadFile)
        }
    }
}
