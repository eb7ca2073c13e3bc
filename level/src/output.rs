//! The forms of output, and how a file of it comes to be there: whole or not at all.

use crate::{
    listing, picture,
    worker::{Answer, Trouble},
};
use gussetraft::results::pack;
use std::{
    ffi::OsString,
    fs::{self, File},
    io::{self, BufWriter, ErrorKind, Write},
    path::{Path, PathBuf},
    process,
};

/// What is written of a field's regions.
#[derive(Debug, Clone, Copy, PartialEq, Eq)]
pub enum Form {
    /// The listing.
    Listing,
    /// The stored result.
    Runs,
    /// A picture, with so many pixels a cell.
    Picture { size: usize },
}

impl Form {
    /// What its files end in.
    pub fn ending(self) -> &'static str {
        match self {
            Self::Listing => ".listing",
            Self::Runs => ".runs",
            Self::Picture { .. } => ".ppm",
        }
    }
}

/// Writes the output of a field.
pub fn write(form: Form, answer: &Answer<'_>, path: &Path) -> Result<(), Trouble> {
    if matches!(form, Form::Picture { .. }) && answer.field.count.is_empty() {
        return Err(Trouble::Refused("there are no cells to draw".to_owned()));
    }
    put(path, |out| match form {
        Form::Listing => listing::write(answer, out),
        Form::Runs => runs(answer.ids, out),
        Form::Picture { size } => picture::write(answer, size, out),
    })
    .map_err(|error| Trouble::failed("can't write", path, error))
}

/// The stored result: one record a span, packed by the library.
fn runs(ids: &[u16], out: &mut impl Write) -> io::Result<()> {
    let mut old = Vec::with_capacity(3 * ids.len() + 1);
    for id in ids {
        old.push(5);
        old.extend(id.to_le_bytes());
    }
    old.push(4);
    let mut new = vec![0; 6 * ids.len() + 1];
    let length = pack(&old, &mut new).map_err(io::Error::other)?;
    out.write_all(&new[..length])
}

/// Writes to a name of its own beside the path, and renames it once it is whole. The name has the process's number: no other writes it.
fn put(path: &Path, write: impl FnOnce(&mut BufWriter<File>) -> io::Result<()>) -> io::Result<()> {
    let part = part_of(path);
    let written = (|| {
        let mut out = BufWriter::with_capacity(256 * 1_024, File::create(&part)?);
        write(&mut out)?;
        out.into_inner().map_err(|error| error.into_error())?;
        fs::rename(&part, path)
    })();
    if written.is_err() {
        // what is left of it, if anything is
        let _ = fs::remove_file(&part);
    }
    written
}

fn part_of(path: &Path) -> PathBuf {
    let mut name = OsString::from(".");
    name.push(path.file_name().unwrap_or_default());
    name.push(format!(".{}.part", process::id()));
    path.with_file_name(name)
}

/// Takes away what an earlier run left at a path.
pub fn remove(path: &Path) -> Result<(), Trouble> {
    match fs::remove_file(path) {
        Err(error) if error.kind() != ErrorKind::NotFound => {
            Err(Trouble::failed("can't remove", path, error))
        }
        _ => Ok(()),
    }
}
