//! The words of the command.

use crate::output::Form;
use std::{
    collections::HashMap,
    ffi::{OsStr, OsString},
    fs,
    path::{Path, PathBuf},
    thread,
};

pub const HELP: &str = "\
usage: gussetraft-level [--listing | --store | --picture] [-j N] [-o FOLDER] [-q] FILE|FOLDER..

Builds the regions of field files, of up to 256 by 256 cells and 65,000 spans each: one file in, one file out. Of a FOLDER all files *.field are
taken, by name. NAME.field becomes NAME.listing, NAME.runs or NAME.ppm beside it.

  --listing     the listing that ./gussetraft prints (this, if nothing is said)
  --store       the stored result: runs of equal ids, as ./gussetraft --store
  --picture     a picture (PPM) that looks as tools/picture draws it
  --size N      the picture's pixels a cell, 1 to 64 (without it 4)
  -j N          so many files at once (without it as many as there are cores); each worker takes up to 18 MB
  -o FOLDER     the output goes to FOLDER, which is made if it is not there
  -q            no progress, and only the files that were not done are told
  --help        print this

Standard output tells each file that was not done, with the refusal's number and meaning, and how many were; on a terminal standard error shows
progress. A file that is not done stops nothing. A refused one has no output: an older one of its name is removed. Output is written to a name
that begins with a dot, and renamed once it is whole.

Exit status: 0 all done; 1 some were refused; 2 some could not be read or written, or wrong words, and then nothing was begun.
";

/// One file in, one file out.
#[derive(Debug)]
pub struct Job {
    pub input: PathBuf,
    pub output: PathBuf,
}

/// What is asked for.
#[derive(Debug)]
pub struct Order {
    pub form: Form,
    pub workers: usize,
    pub quiet: bool,
    pub jobs: Vec<Job>,
}

/// The order, or nothing where help is asked for; otherwise what is wrong with the words.
pub fn read(words: impl Iterator<Item = OsString>) -> Result<Option<Order>, String> {
    let mut words = words.peekable();
    let (mut form, mut size, mut workers) = (None, None, None);
    let (mut folder, mut quiet, mut inputs) = (None, false, Vec::new());
    let mut options = true;
    while let Some(word) = words.next() {
        let text = word
            .to_str()
            .filter(|text| options && text.starts_with('-'));
        let mut value = |what: &str| words.next().ok_or(format!("{what} lacks its value"));
        match text {
            None => inputs.push(PathBuf::from(word)),
            Some("--help" | "-h") => return Ok(None),
            Some("--") => options = false,
            Some("-q") => quiet = true,
            Some("-o") => folder = Some(PathBuf::from(value("-o")?)),
            Some("-j") => workers = Some(number("-j", &value("-j")?, 1_024)?),
            Some("--size") => size = Some(number("--size", &value("--size")?, 64)?),
            Some("--listing") => only(&mut form, Form::Listing)?,
            Some("--store") => only(&mut form, Form::Runs)?,
            Some("--picture") => only(&mut form, Form::Picture { size: 4 })?,
            Some(other) => return Err(format!("unknown option {other}")),
        }
    }
    let form = match (form.unwrap_or(Form::Listing), size) {
        (form, None) => form,
        (Form::Picture { .. }, Some(size)) => Form::Picture { size },
        _ => return Err("--size is for --picture".to_owned()),
    };
    let jobs = jobs(&inputs, folder.as_deref(), form)?;
    if let Some(folder) = &folder {
        fs::create_dir_all(folder)
            .map_err(|error| format!("can't make {}: {error}", folder.display()))?;
    }
    let workers = workers.unwrap_or_else(|| thread::available_parallelism().map_or(1, usize::from));
    Ok(Some(Order {
        form,
        workers,
        quiet,
        jobs,
    }))
}

fn only(form: &mut Option<Form>, this: Form) -> Result<(), String> {
    match form.replace(this) {
        None => Ok(()),
        Some(_) => Err("one of --listing, --store and --picture at a time".to_owned()),
    }
}

fn number(option: &str, value: &OsStr, most: usize) -> Result<usize, String> {
    (value.to_str().and_then(|text| text.parse().ok()))
        .filter(|number| (1..=most).contains(number))
        .ok_or(format!(
            "{option} takes a number from 1 to {most}, not {}",
            value.display()
        ))
}

/// The files, those of folders by name, each with its output. No two may have the same output.
fn jobs(inputs: &[PathBuf], folder: Option<&Path>, form: Form) -> Result<Vec<Job>, String> {
    if inputs.is_empty() {
        return Err("no file named".to_owned());
    }
    let mut files = Vec::new();
    for input in inputs {
        if input.is_dir() {
            files.extend(fields_of(input)?);
        } else {
            files.push(input.clone());
        }
    }
    let mut made: HashMap<PathBuf, PathBuf> = HashMap::new();
    let mut jobs = Vec::new();
    for input in files {
        let output = output_of(&input, folder, form)?;
        if let Some(other) = made.insert(output.clone(), input.clone()) {
            return Err(format!(
                "{} and {} would both be {}",
                other.display(),
                input.display(),
                output.display()
            ));
        }
        jobs.push(Job { input, output });
    }
    Ok(jobs)
}

/// The files *.field of a folder, by name.
fn fields_of(folder: &Path) -> Result<Vec<PathBuf>, String> {
    let unread = |error| format!("can't read {}: {error}", folder.display());
    let mut files = Vec::new();
    for entry in fs::read_dir(folder).map_err(unread)? {
        let path = entry.map_err(unread)?.path();
        if path.extension() == Some(OsStr::new("field")) && !path.is_dir() {
            files.push(path);
        }
    }
    if files.is_empty() {
        return Err(format!("{} has no files *.field", folder.display()));
    }
    files.sort();
    Ok(files)
}

/// NAME.field gives NAME and the form's ending; any other name keeps what it ends in.
fn output_of(input: &Path, folder: Option<&Path>, form: Form) -> Result<PathBuf, String> {
    let name = match input.extension() {
        Some(ending) if ending == "field" => input.file_stem(),
        _ => input.file_name(),
    };
    let name = name.ok_or(format!("{} names no file", input.display()))?;
    let mut name = name.to_owned();
    name.push(form.ending());
    Ok(match folder {
        Some(folder) => folder.join(name),
        None => input.with_file_name(name),
    })
}
