//! Makes the sample levels: for each draft of a folder the field file and its listing.

use oracle::samples;
use std::{
    env, fs,
    io::{self, Write},
    path::{Path, PathBuf},
    process::ExitCode,
};

const HELP: &str = "\
usage: samples [DIR]

Reads DIR/NAME.draft and writes DIR/NAME.field and DIR/NAME.listing. Without DIR
the project's own folder `samples` is taken. How a draft is written is told in
samples/README.md.
";

fn main() -> ExitCode {
    match run() {
        Ok(()) => ExitCode::SUCCESS,
        Err(error) => {
            eprintln!("samples: {error}");
            ExitCode::FAILURE
        }
    }
}

fn run() -> io::Result<()> {
    let folder = match env::args().nth(1) {
        Some(option) if option.starts_with('-') => {
            return io::stdout().write_all(HELP.as_bytes());
        }
        Some(folder) => PathBuf::from(folder),
        None => Path::new(env!("CARGO_MANIFEST_DIR")).join("../../samples"),
    };
    for sample in samples::make(&folder)? {
        fs::write(folder.join(format!("{}.field", sample.name)), sample.file)?;
        fs::write(
            folder.join(format!("{}.listing", sample.name)),
            sample.listing,
        )?;
    }
    Ok(())
}
