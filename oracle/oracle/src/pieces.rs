//! The loading of field files in pieces, request A2, written from document 02's words alone: what a whole file gives, with the position.

use crate::{
    field::{Case, Field, Settings},
    file::Limits,
    refusals::Refusal,
};

/// A refusal "now with a position counted from 0".
#[derive(Debug, Clone, Copy, PartialEq, Eq)]
pub struct Stop {
    /// 20 or 21.
    pub refusal: Refusal,
    /// Where.
    pub position: usize,
}

/// What a whole file comes to.
#[derive(Debug, Clone, PartialEq, Eq)]
pub struct Loaded {
    /// The settings, or why and where the file is refused.
    pub answer: Result<Settings, Stop>,
    /// The field, or what of it was read; of a span cut short, the bytes that came.
    pub field: Field,
}

impl Loaded {
    /// The case of a file that is not refused.
    pub fn case(self) -> Result<Case, Refusal> {
        let settings = self.answer.map_err(|stop| stop.refusal)?;
        Ok(Case {
            field: self.field,
            settings,
        })
    }
}

/// Loads a file.
pub fn load(bytes: &[u8], limits: Limits) -> Loaded {
    let mut walk = Walk {
        bytes,
        at: 0,
        field: Field::default(),
    };
    let answer = walk.file(limits);
    Loaded {
        answer,
        field: walk.field,
    }
}

struct Walk<'a> {
    bytes: &'a [u8],
    at: usize,
    field: Field,
}

impl Walk<'_> {
    fn file(&mut self, limits: Limits) -> Result<Settings, Stop> {
        let header = self.kind(1)?;
        let mut numbers = [0; 5];
        for number in &mut numbers {
            *number = u16::from(self.byte()?) + 256 * u16::from(self.byte()?);
        }
        let [w, h, border_size, least_area, merge_area] = numbers;
        // "over 1,024 cells (at the header)"
        if usize::from(w) * usize::from(h) > limits.cells {
            return Err(too_large(header));
        }
        (self.field.w, self.field.h) = (w, h);
        for _ in 0..usize::from(w) * usize::from(h) {
            self.cell(limits)?;
        }
        self.kind(4)?;
        // "the first byte after the end record"
        if self.at < self.bytes.len() {
            return Err(bad(self.at));
        }
        Ok(Settings {
            border_size,
            least_area,
            merge_area,
        })
    }

    fn cell(&mut self, limits: Limits) -> Result<(), Stop> {
        let at = self.kind(2)?;
        let count = self.byte()?;
        let before = self.field.area.len();
        // "or 200 spans (at the cell that passes it)"
        if before + usize::from(count) > limits.spans {
            return Err(too_large(at));
        }
        self.field.index.push(before as u32);
        self.field.count.push(count);
        for _ in 0..count {
            self.kind(3)?;
            let area = self.byte()?;
            self.field.area.push(area);
            for _ in 0..4 {
                let con = self.byte()?;
                self.field.con.push(con);
            }
        }
        Ok(())
    }

    /// The place of the next kind byte, which must be this one: "the kind byte of the record at fault".
    fn kind(&mut self, kind: u8) -> Result<usize, Stop> {
        let at = self.at;
        if self.byte()? == kind {
            Ok(at)
        } else {
            Err(bad(at))
        }
    }

    /// The next byte, or "for a file cut short, the number of bytes received".
    fn byte(&mut self) -> Result<u8, Stop> {
        let byte = self.bytes.get(self.at).copied();
        let byte = byte.ok_or(bad(self.bytes.len()))?;
        self.at += 1;
        Ok(byte)
    }
}

fn bad(position: usize) -> Stop {
    Stop {
        refusal: Refusal::BadFile,
        position,
    }
}

fn too_large(position: usize) -> Stop {
    Stop {
        refusal: Refusal::FileTooLarge,
        position,
    }
}
