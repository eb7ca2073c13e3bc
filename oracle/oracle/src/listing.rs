//! What the program prints.

use crate::{
    field::{Case, Field},
    file::{self, Limits},
    refusals::Refusal,
    run::{self, Regions},
};

/// The whole output for a file: the listing, or the line of a refusal.
pub fn answer(file: &[u8], limits: Limits) -> String {
    listing_of(file, limits).unwrap_or_else(|refusal| format!("{refusal}\n"))
}

fn listing_of(file: &[u8], limits: Limits) -> Result<String, Refusal> {
    let Case { field, settings } = file::read(file, limits)?;
    let (distances, regions) = run::both(&field, settings)?;
    Ok(listing(&field, distances.max_distance, &regions))
}

/// The listing of a field's regions: the numbers, then the ids row by row.
pub fn listing(field: &Field, max_distance: u16, regions: &Regions) -> String {
    let Regions {
        max_region,
        overlaps,
        cut,
        ..
    } = regions;
    let mut text = format!(
        "max_distance {max_distance} max_region {max_region} overlaps {overlaps} cut {cut}\n"
    );
    for z in 0..field.h {
        let row: Vec<_> = (0..field.w)
            .map(|x| cell_text(field, field.cell_at(x, z), &regions.ids))
            .collect();
        text.push_str(&row.join(" "));
        text.push('\n');
    }
    text
}

fn cell_text(field: &Field, cell: usize, ids: &[u16]) -> String {
    if field.count[cell] == 0 {
        return "-".to_owned();
    }
    let layers: Vec<_> = ids[field.spans_in(cell)]
        .iter()
        .map(u16::to_string)
        .collect();
    layers.join("/")
}
