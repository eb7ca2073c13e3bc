//! Tells how many mistakes the stored vectors catch, and names those that they do not.

use oracle::{model::Mistake, vectors};
use std::{
    env, fs,
    io::{self, Write},
    process::ExitCode,
};

const HELP: &str = "\
usage: mistakes [FILE]

Runs the model with each mistake on the fields of a batch file (without FILE the
stored crates/vectors/stdin), and tells which mistakes some answer shows. It
fails if one is not shown that could be.
";

fn main() -> ExitCode {
    match run() {
        Ok(true) => ExitCode::SUCCESS,
        Ok(false) => ExitCode::FAILURE,
        Err(message) => {
            eprintln!("mistakes: {message}");
            ExitCode::FAILURE
        }
    }
}

fn run() -> Result<bool, String> {
    let path = env::args()
        .nth(1)
        .unwrap_or_else(|| format!("{}/stdin", vectors::STORED));
    if path == "--help" {
        return print(HELP).map(|()| true);
    }
    let batch = fs::read(&path).map_err(|error| format!("can't read {path}: {error}"))?;
    let files = vectors::unpack(&batch).ok_or(format!("{path} is cut short"))?;
    let counts = vectors::count_caught(&files);
    let (unseen, seen): (Vec<_>, Vec<_>) = counts
        .iter()
        .partition(|(mistake, _)| mistake.unseen().is_some());
    let caught = seen.iter().filter(|&&&(_, count)| count > 0).count();
    let mut text = format!(
        "{} fields catch {caught} of {} mistakes that a field file can show\n",
        files.len(),
        seen.len()
    );
    for &&(mistake, count) in &seen {
        if count < 3 {
            text += &format!("{}: {}\n", times(count), told(mistake));
        }
    }
    text += &format!("{} mistakes that no field file shows:\n", unseen.len());
    for &&(mistake, count) in &unseen {
        let reason = mistake.unseen().unwrap_or_default();
        let surprise = if count > 0 { " BUT IT IS CAUGHT" } else { "" };
        text += &format!("{}. Why: {reason}.{surprise}\n", told(mistake));
    }
    print(&text)?;
    let as_told = unseen.iter().all(|&&(_, count)| count == 0);
    Ok(caught == seen.len() && as_told)
}

fn times(count: usize) -> String {
    match count {
        0 => "NOT CAUGHT".to_owned(),
        1 => "caught once".to_owned(),
        _ => format!("caught {count} times"),
    }
}

fn told(mistake: Mistake) -> String {
    format!("{mistake:?} ({})", mistake.about())
}

fn print(text: &str) -> Result<(), String> {
    io::stdout()
        .write_all(text.as_bytes())
        .map_err(|error| format!("can't write: {error}"))
}
