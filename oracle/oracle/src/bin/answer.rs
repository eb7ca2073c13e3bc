//! Answers a field file as document 01's program does.

use oracle::{file::Limits, listing};
use std::{
    env, fs,
    io::{self, Read, Write},
    process::ExitCode,
};

const HELP: &str = "\
usage: answer [--any-size] [FILE]

Reads a field file (standard input if none is named) and prints the listing,
or `refused` and a number.

  --any-size  take files of over 1,024 cells or 200 spans, too
  --help      print this
";

fn main() -> ExitCode {
    match run() {
        Ok(()) => ExitCode::SUCCESS,
        Err(message) => {
            eprintln!("answer: {message}");
            ExitCode::FAILURE
        }
    }
}

fn run() -> Result<(), String> {
    let mut limits = Limits::PROGRAM;
    let mut path = None;
    for argument in env::args().skip(1) {
        match argument.as_str() {
            "--help" => return print(HELP),
            "--any-size" => limits = Limits::FORMAT,
            option if option.starts_with('-') => {
                return Err(format!("unknown option {option}; see --help"));
            }
            _ if path.is_some() => return Err("one file at most; see --help".to_owned()),
            _ => path = Some(argument),
        }
    }
    print(&listing::answer(&read(path.as_deref())?, limits))
}

fn read(path: Option<&str>) -> Result<Vec<u8>, String> {
    match path {
        Some(path) => fs::read(path).map_err(|error| format!("can't read {path}: {error}")),
        None => {
            let mut bytes = Vec::new();
            io::stdin()
                .read_to_end(&mut bytes)
                .map_err(|error| format!("can't read standard input: {error}"))?;
            Ok(bytes)
        }
    }
}

fn print(text: &str) -> Result<(), String> {
    io::stdout()
        .write_all(text.as_bytes())
        .map_err(|error| format!("can't write: {error}"))
}
