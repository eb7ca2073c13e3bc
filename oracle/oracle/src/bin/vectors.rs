//! Makes the stored vectors: `stdin`, a batch of field files, and `stdout`, what the unchanged Rust answers to them.

use oracle::vectors;
use std::{
    env, fs,
    io::{self, Write},
    path::{Path, PathBuf},
    process::ExitCode,
};

const HELP: &str = "\
usage: vectors [--out DIR]

Chooses the fields (a minute or two) and writes DIR/stdin and DIR/stdout. The
same bytes come out on every machine. Without --out, DIR is crates/vectors of
the repository, where the stored vectors are.
";

fn main() -> ExitCode {
    match run() {
        Ok(()) => ExitCode::SUCCESS,
        Err(message) => {
            eprintln!("vectors: {message}");
            ExitCode::FAILURE
        }
    }
}

fn run() -> Result<(), String> {
    let arguments: Vec<_> = env::args().skip(1).collect();
    let arguments: Vec<_> = arguments.iter().map(String::as_str).collect();
    match arguments[..] {
        [] => write(Path::new(vectors::STORED)),
        ["--out", folder] => write(&PathBuf::from(folder)),
        ["--help"] => io::stdout()
            .write_all(HELP.as_bytes())
            .map_err(|error| format!("can't write: {error}")),
        _ => Err("see --help".to_owned()),
    }
}

fn write(folder: &Path) -> Result<(), String> {
    let files = vectors::choose();
    fs::create_dir_all(folder)
        .and_then(|()| fs::write(folder.join("stdin"), vectors::pack(&files)))
        .and_then(|()| fs::write(folder.join("stdout"), vectors::answers(&files)))
        .map_err(|error| format!("can't write to {}: {error}", folder.display()))
}
