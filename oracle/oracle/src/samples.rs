//! The sample levels: field files made from drafts.

use crate::{
    field::{Case, NONE},
    file::{self, Limits},
    listing, sketch,
};
use std::{fs, io, path::Path};

/// A sample's name, file and listing.
#[derive(Debug, Clone, PartialEq, Eq)]
pub struct Sample {
    /// The name.
    pub name: String,
    /// The field file.
    pub file: Vec<u8>,
    /// The unchanged Rust's answer.
    pub listing: String,
}

impl Sample {
    fn new(name: &str, case: &Case) -> Self {
        let file = file::write(case);
        let listing = listing::answer(&file, Limits::PROGRAM);
        Self {
            name: name.to_owned(),
            file,
            listing,
        }
    }
}

/// The samples of the drafts in a folder, and one more with a fault, by name.
pub fn make(folder: &Path) -> io::Result<Vec<Sample>> {
    let mut samples = Vec::new();
    for entry in fs::read_dir(folder)? {
        let path = entry?.path();
        let Some(name) = path.file_name().and_then(|name| name.to_str()) else {
            continue;
        };
        let Some(name) = name.strip_suffix(".draft") else {
            continue;
        };
        let case = sketch::read(&fs::read_to_string(&path)?)
            .map_err(|message| io::Error::other(format!("{name}: {message}")))?;
        samples.push(Sample::new(name, &case));
        if name == "two-rooms" {
            samples.push(Sample::new("one-way-door", &with_one_way_door(case)));
        }
    }
    samples.sort_by(|one, other| one.name.cmp(&other.name));
    Ok(samples)
}

/// The two rooms, but the door leads to the right room and not back.
fn with_one_way_door(mut case: Case) -> Case {
    let field = &mut case.field;
    let right_of_door = field.cell_at(8, 3);
    let span = field.index[right_of_door] as usize;
    field.con[4 * span] = NONE;
    case
}
