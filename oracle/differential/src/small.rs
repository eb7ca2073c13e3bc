//! Field files by seed, answered by the program `vectors` in batches and by the unchanged Rust.

use crate::tally::{Tally, only};
use oracle::{
    damage::{self, DAMAGES},
    file::{self, Limits},
    levels::{KINDS, Size},
    listing,
    vectors::{self, pack},
};
use std::{
    io::{Read, Write},
    path::Path,
    process::{Command, Stdio},
    thread,
};

/// How many fields one process answers.
const BATCH: usize = 4_000;

/// The longest file that the program takes.
const LONGEST: usize = 4_096;

/// Of so many seeds in a row each kind of `make` has one, spoilt files have one, and edited ones the rest.
const ROUND: u64 = 32;

struct Sample {
    seed: u64,
    kind: &'static str,
    file: Vec<u8>,
    answer: String,
}

impl Sample {
    fn new(seed: u64) -> Self {
        let (kind, file) = make(seed);
        assert!(file.len() <= LONGEST, "the file of seed {seed} is too long");
        let answer = listing::answer(&file, Limits::PROGRAM);
        Self {
            seed,
            kind,
            file,
            answer,
        }
    }

    /// The height that the file's header tells.
    fn rows(&self) -> usize {
        match self.file[..] {
            [_, _, _, low, high, ..] => usize::from(u16::from_le_bytes([low, high])),
            _ => 0,
        }
    }

    /// What of the printed bytes is meant for this file: one line and, where it begins a listing, the rows.
    fn own_part<'a>(&self, printed: &'a [u8]) -> &'a [u8] {
        let rows = if printed.starts_with(b"max_distance") {
            self.rows()
        } else {
            0
        };
        let mut ends = (0..printed.len()).filter(|&place| printed[place] == b'\n');
        let end = ends.nth(rows).map_or(printed.len(), |place| place + 1);
        &printed[..end]
    }
}

/// The kind and the file of a seed.
pub fn make(seed: u64) -> (&'static str, Vec<u8>) {
    let turn = (seed % ROUND) as usize;
    if let Some(kind) = KINDS.get(turn) {
        return (kind.name, file::write(&kind.make(Size::Small, seed)));
    }
    match DAMAGES.get(turn - KINDS.len()) {
        Some(damage) => (damage.name, damage.make(seed)),
        None if turn == KINDS.len() + DAMAGES.len() => ("spoilt", damage::spoilt(seed)),
        None => ("edited", vectors::edited(seed)),
    }
}

/// Compares the fields of so many seeds.
pub fn compare(program: &Path, first: u64, count: u64) -> Result<Tally, String> {
    let mut tally = Tally::default();
    let mut seeds = first..first + count;
    loop {
        let batch: Vec<_> = seeds.by_ref().take(BATCH).map(Sample::new).collect();
        if batch.is_empty() || tally.is_enough() {
            return Ok(tally);
        }
        let compared = compare_batch(program, &batch, &mut tally)?;
        for sample in &batch[..compared] {
            tally.fields += 1;
            tally.count(sample.kind, label(&sample.answer));
            tally.tell_progress("small", count);
        }
    }
}

/// Compares a batch; behind a difference, the rest of it again. Gives how many fields were compared.
fn compare_batch(program: &Path, batch: &[Sample], tally: &mut Tally) -> Result<usize, String> {
    let mut rest = batch;
    while !rest.is_empty() && !tally.is_enough() {
        let Printed { text, ended_well } = run(program, rest)?;
        let mut place = 0;
        let is_other = |sample: &Sample| {
            let same = text[place..].starts_with(sample.answer.as_bytes());
            place += if same { sample.answer.len() } else { 0 };
            !same
        };
        let Some(other) = rest.iter().position(is_other) else {
            let seeds = format!("{} to {}", rest[0].seed, rest[rest.len() - 1].seed);
            if place < text.len() {
                tally.differs(&format!(
                    "small fields of seeds {seeds}: the program prints more than the answers"
                ));
            }
            if !ended_well {
                tally.differs(&format!(
                    "small fields of seeds {seeds}: the program ends with an error"
                ));
            }
            return Ok(batch.len());
        };
        let printed = rest[other].own_part(&text[place..]);
        tell(program, &rest[..=other], printed, tally)?;
        rest = &rest[other + 1..];
    }
    Ok(batch.len() - rest.len())
}

/// Tells that the last of the samples is answered otherwise.
fn tell(
    program: &Path,
    samples: &[Sample],
    printed: &[u8],
    tally: &mut Tally,
) -> Result<(), String> {
    let Some(sample) = samples.last() else {
        return Ok(());
    };
    let alone = run(program, std::slice::from_ref(sample))?;
    // if it is answered right alone, those before it matter
    let again = if alone.text == sample.answer.as_bytes() {
        samples
    } else {
        std::slice::from_ref(sample)
    };
    tally.differs(&format!(
        "small field of seed {}, kind {}\n\
         again: {} --seed {}\n\
         the program prints\n{}the Rust\n{}",
        sample.seed,
        sample.kind,
        only("small", again.len()),
        again[0].seed,
        String::from_utf8_lossy(printed),
        sample.answer
    ));
    Ok(())
}

struct Printed {
    text: Vec<u8>,
    ended_well: bool,
}

/// What the program prints for the files.
fn run(program: &Path, samples: &[Sample]) -> Result<Printed, String> {
    let can_not = |error| format!("can't run {}: {error}", program.display());
    let files: Vec<_> = samples.iter().map(|sample| sample.file.clone()).collect();
    let mut child = Command::new(program)
        .stdin(Stdio::piped())
        .stdout(Stdio::piped())
        .spawn()
        .map_err(can_not)?;
    let (stdin, stdout) = (child.stdin.take(), child.stdout.take());
    let (Some(mut stdin), Some(mut stdout)) = (stdin, stdout) else {
        return Err("the program has no pipes".to_owned());
    };
    // A program that ends early closes the pipe; what it has not printed is then told as a difference.
    let writer = thread::spawn(move || {
        let _ = stdin.write_all(&pack(&files));
    });
    let mut text = Vec::new();
    stdout.read_to_end(&mut text).map_err(can_not)?;
    let ended_well = child.wait().map_err(can_not)?.success();
    writer
        .join()
        .map_err(|_| "the batch can't be written".to_owned())?;
    Ok(Printed { text, ended_well })
}

/// The answer's sort: a listing (with overlaps or without), or the line of a refusal.
fn label(answer: &str) -> &str {
    let first = answer.lines().next().unwrap_or_default();
    if !first.starts_with("max_distance") {
        first
    } else if first.ends_with(" overlaps 0 cut 0") {
        "listing"
    } else {
        "listing with overlaps"
    }
}
