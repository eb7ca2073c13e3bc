//! The file and the listing.

use super::{FLAG, Mistake, Model, Regions, is_flagged};
use crate::field::{Field, Settings};

/// Malformed: unknown kind, record out of place, cut short, bytes after the end.
const MALFORMED: u8 = 20;
/// Over 1,024 cells or 200 spans.
const TOO_LARGE: u8 = 21;

/// The field and the settings of a file, or the refusal that is first met in it.
pub fn read(model: Model, file: &[u8]) -> Result<(Field, Settings), u8> {
    let mut rest = Rest { bytes: file };
    let mut told_at_end = Ok(());

    let header = rest.record(1, 10)?;
    let number = |i: usize| {
        let pair = [header[2 * i], header[2 * i + 1]];
        if model.has(Mistake::BigEndian) {
            u16::from_be_bytes(pair)
        } else {
            u16::from_le_bytes(pair)
        }
    };
    let mut field = Field {
        w: number(0),
        h: number(1),
        ..Field::default()
    };
    let mut settings = Settings {
        border_size: number(2),
        least_area: number(3),
        merge_area: number(4),
    };
    if model.has(Mistake::SidesExchanged) {
        (field.w, field.h) = (field.h, field.w);
    }
    if model.has(Mistake::AreasExchanged) {
        (settings.least_area, settings.merge_area) = (settings.merge_area, settings.least_area);
    }

    let cell_limit = match model.mistake {
        Some(Mistake::CellLimit1023) => 1_023,
        Some(Mistake::CellLimit1025) => 1_025,
        _ => 1_024,
    };
    if field.cells() > cell_limit {
        told_at_end = Err(TOO_LARGE);
        if !model.has(Mistake::CellsToldAtEnd) {
            return Err(TOO_LARGE);
        }
    }
    let span_limit = match model.mistake {
        Some(Mistake::SpanLimit199) => 199,
        Some(Mistake::SpanLimit201) => 201,
        _ => 200,
    };
    for _ in 0..field.cells() {
        if model.has(Mistake::MissingCellsEmpty) && rest.bytes.is_empty() {
            field.index.push(field.area.len() as u32);
            field.count.push(0);
            continue;
        }
        if model.has(Mistake::CountBeforeKind) && rest.bytes.len() >= 2 {
            let count = usize::from(rest.bytes[1]);
            if field.spans() + count > span_limit {
                return Err(TOO_LARGE);
            }
        }
        let count = rest.record(2, 1)?[0];
        if field.spans() + usize::from(count) > span_limit {
            if model.has(Mistake::SpansToldAtEnd) {
                told_at_end = Err(TOO_LARGE);
            } else if !model.has(Mistake::SpansToldAtSpan) {
                return Err(TOO_LARGE);
            }
        }
        field.index.push(field.area.len() as u32);
        field.count.push(count);
        for _ in 0..count {
            let span = rest.record(3, 5)?;
            field.area.push(span[0]);
            field.con.extend(&span[1..]);
            if model.has(Mistake::SpansToldAtSpan) && field.spans() > span_limit {
                return Err(TOO_LARGE);
            }
        }
    }
    let end_is_needed = !model.has(Mistake::NoEnd) && !model.has(Mistake::MissingCellsEmpty);
    if end_is_needed || !rest.bytes.is_empty() {
        rest.record(4, 0)?;
    }
    if !rest.bytes.is_empty() && !model.has(Mistake::BytesAfter) {
        return Err(MALFORMED);
    }
    told_at_end.map(|()| (field, settings))
}

/// What is left of a file.
struct Rest<'a> {
    bytes: &'a [u8],
}

impl Rest<'_> {
    /// The body of the next record, which must be of the kind that belongs here.
    fn record(&mut self, kind: u8, length: usize) -> Result<Vec<u8>, u8> {
        let whole = 1 + length;
        if self.bytes.len() < whole || self.bytes[0] != kind {
            return Err(MALFORMED);
        }
        let body = self.bytes[1..whole].to_vec();
        self.bytes = &self.bytes[whole..];
        Ok(body)
    }
}

/// The numbers, then a line for each row.
pub fn listing(model: Model, field: &Field, max_distance: u16, regions: &Regions) -> String {
    let mut text = format!(
        "max_distance {max_distance} max_region {} overlaps {} cut {}\n",
        regions.max_region, regions.overlaps, regions.cut
    );
    let mut ids = regions.ids.iter();
    let mut counts = field.count.iter();
    if field.w == 0 && model.has(Mistake::NoRowsWithoutWidth) {
        return text;
    }
    for _ in 0..field.h {
        for x in 0..field.w {
            if x > 0 {
                text.push(' ');
            }
            let count = counts.next().map_or(0, |&count| usize::from(count));
            let layers: Vec<_> = ids.by_ref().take(count).copied().collect();
            text.push_str(&cell(model, layers));
        }
        text.push('\n');
    }
    text
}

/// Layers joined by `/`; an empty cell is `-`.
fn cell(model: Model, mut layers: Vec<u16>) -> String {
    if layers.is_empty() {
        let empty = if model.has(Mistake::EmptyCellNothing) {
            ""
        } else {
            "-"
        };
        return empty.to_owned();
    }
    if model.has(Mistake::LayersDownward) {
        layers.reverse();
    }
    let decimal = |&id: &u16| {
        if is_flagged(id) && model.has(Mistake::FlagNotPrinted) {
            (id & !FLAG).to_string()
        } else {
            id.to_string()
        }
    };
    layers.iter().map(decimal).collect::<Vec<_>>().join("/")
}
