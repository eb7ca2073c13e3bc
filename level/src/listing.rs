//! The listing of document 01, as ./gussetraft prints it.

use crate::worker::Answer;
use std::io::{self, Write};

/// The numbers, then a line for each row: layers joined by `/`, an empty cell as `-`.
pub fn write(answer: &Answer<'_>, out: &mut impl Write) -> io::Result<()> {
    let Answer {
        field,
        max_distance,
        regions,
        ids,
    } = answer;
    let (most, overlaps, cut) = (regions.max_region, regions.overlaps, regions.cut);
    writeln!(
        out,
        "max_distance {max_distance} max_region {most} overlaps {overlaps} cut {cut}"
    )?;
    let mut counts = field.count.iter();
    let mut ids = ids.iter();
    for _ in 0..field.h {
        for x in 0..field.w {
            if x > 0 {
                out.write_all(b" ")?;
            }
            // the field has w times h cells and as many spans as they count: it was not refused
            let count = counts.next().copied().unwrap_or(0);
            if count == 0 {
                out.write_all(b"-")?;
            }
            for (layer, id) in ids.by_ref().take(count.into()).enumerate() {
                if layer > 0 {
                    out.write_all(b"/")?;
                }
                write!(out, "{id}")?;
            }
        }
        out.write_all(b"\n")?;
    }
    Ok(())
}
