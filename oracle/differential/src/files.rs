//! Field files by seed, mended by the program `mending` and by the model of document 02's words.

use crate::{
    edited, small,
    tally::{Tally, only},
};
use oracle::{
    field::{Case, Field},
    file::{self, Limits},
    mending::{self, Mended},
    pieces,
    refusals::Refusal,
};
use std::{
    io::Write,
    path::Path,
    process::{Command, Stdio},
};

/// How many changes the program has places for: four for each span of the largest file.
const PLACES: usize = 800;

/// What is printed for a file, and told on standard error.
#[derive(PartialEq, Eq)]
struct Printed {
    out: Vec<u8>,
    told: String,
}

/// Compares the files of so many seeds.
pub fn compare(program: &Path, first: u64, count: u64) -> Result<Tally, String> {
    let mut tally = Tally::default();
    for seed in first..first + count {
        if tally.is_enough() {
            break;
        }
        let (kind, bytes) = make(seed);
        let (answer, expected) = expected(&bytes);
        if run(program, &bytes)? == expected {
            tally.count(kind, &answer);
        } else {
            tally.differs(&format!(
                "file of seed {seed}, kind {kind}, through the program mending\nagain: {} --seed {seed}",
                only("edited", 7)
            ));
        }
        tally.fields += 1;
        tally.tell_progress("files", count);
    }
    Ok(tally)
}

/// The kind and the file of a seed: an edited field or, every fourth time, a file of the small part.
fn make(seed: u64) -> (&'static str, Vec<u8>) {
    let edited = if seed % 4 == 3 {
        None
    } else {
        edited::file(seed)
    };
    edited.unwrap_or_else(|| small::make(seed))
}

/// The sort of the answer to a file, and what is to be printed.
fn expected(bytes: &[u8]) -> (String, Printed) {
    let read = file::read(bytes, Limits::PROGRAM);
    let mended = read.and_then(|case| {
        let mended = mending::mend(&case.field, PLACES)?;
        Ok((case, mended))
    });
    match mended {
        Ok((case, mended)) => {
            let sort = if mended.changes.is_empty() {
                "unchanged"
            } else {
                "mended"
            };
            let told = told(&case.field, &mended);
            let field = Field {
                con: mended.con,
                ..case.field
            };
            let out = file::write(&Case { field, ..case });
            (sort.to_owned(), Printed { out, told })
        }
        Err(refusal) => (refusal.to_string(), refused(refusal, bytes)),
    }
}

/// The line, and where in the file, for 20 and 21.
fn refused(refusal: Refusal, bytes: &[u8]) -> Printed {
    let stop = pieces::load(bytes, Limits::PROGRAM).answer.err();
    Printed {
        out: format!("{refusal}\n").into_bytes(),
        told: stop.map_or(String::new(), |stop| {
            format!("position {}\n", stop.position)
        }),
    }
}

/// Column, row, layer, direction and old layer of each change.
fn told(field: &Field, mended: &Mended) -> String {
    let mut lines = String::new();
    for change in &mended.changes {
        let cell = (0..field.cells())
            .find(|&cell| field.spans_in(cell).contains(&change.span))
            .expect("a span is in a cell");
        let (x, z) = (cell % usize::from(field.w), cell / usize::from(field.w));
        let layer = change.span - field.spans_in(cell).start;
        lines += &format!("{x} {z} {layer} {} {}\n", change.direction, change.layer);
    }
    lines
}

fn run(program: &Path, bytes: &[u8]) -> Result<Printed, String> {
    let broken = |error: std::io::Error| format!("{}: {error}", program.display());
    let mut child = Command::new(program)
        .stdin(Stdio::piped())
        .stdout(Stdio::piped())
        .stderr(Stdio::piped())
        .spawn()
        .map_err(broken)?;
    // a file is shorter than a pipe is wide, so nothing waits for anything
    child
        .stdin
        .take()
        .ok_or("no standard input")?
        .write_all(bytes)
        .map_err(broken)?;
    let ended = child.wait_with_output().map_err(broken)?;
    let told = String::from_utf8_lossy(&ended.stderr).into_owned();
    Ok(Printed {
        out: ended.stdout,
        told,
    })
}
