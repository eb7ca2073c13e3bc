//! The two programs, run as a user runs them.

use oracle::{
    damage::DAMAGES,
    file::{self, Limits},
    levels::{self, KINDS, Size},
    listing,
};
use std::{
    fs,
    io::Write,
    path::PathBuf,
    process::{Command, Output, Stdio},
};

const ANSWER: &str = env!("CARGO_BIN_EXE_answer");
const MAKE: &str = env!("CARGO_BIN_EXE_make");

fn run(program: &str, arguments: &[&str], input: &[u8]) -> Output {
    let mut child = Command::new(program)
        .args(arguments)
        .stdin(Stdio::piped())
        .stdout(Stdio::piped())
        .stderr(Stdio::piped())
        .spawn()
        .expect("the program starts");
    // A program that ends without reading closes the pipe.
    let _ = child.stdin.take().expect("a pipe").write_all(input);
    child.wait_with_output().expect("the program ends")
}

fn printed(output: Output) -> Vec<u8> {
    assert!(output.status.success(), "{output:?}");
    output.stdout
}

/// A folder for one test, empty at first.
fn folder(name: &str) -> PathBuf {
    let folder = PathBuf::from(env!("CARGO_TARGET_TMPDIR")).join(name);
    let _ = fs::remove_dir_all(&folder);
    folder
}

fn sound_file(kind: &str, size: Size, seed: u64) -> Vec<u8> {
    file::write(&levels::kind(kind).expect("a kind").make(size, seed))
}

#[test]
fn answer_reads_standard_input() {
    let file = sound_file("rooms", Size::Small, 7);
    let listing = listing::answer(&file, Limits::PROGRAM);
    assert!(listing.starts_with("max_distance "), "{listing}");
    assert_eq!(printed(run(ANSWER, &[], &file)), listing.as_bytes());
    assert_eq!(printed(run(ANSWER, &[], &[])), b"refused 20\n");
}

#[test]
fn answer_reads_a_named_file() {
    let folder = folder("named");
    fs::create_dir_all(&folder).unwrap();
    let path = folder.join("large.field");
    let file = sound_file("terrain", Size::Large, 1);
    fs::write(&path, &file).unwrap();
    let path = path.to_str().unwrap();
    assert_eq!(printed(run(ANSWER, &[path], &[])), b"refused 21\n");
    let listing = listing::answer(&file, Limits::FORMAT);
    assert!(listing.starts_with("max_distance "), "{listing}");
    assert_eq!(
        printed(run(ANSWER, &["--any-size", path], &[])),
        listing.as_bytes()
    );
}

#[test]
fn make_prints_one_file() {
    let arguments = ["--kind", "helix", "--seed", "5"];
    assert_eq!(
        printed(run(MAKE, &arguments, &[])),
        sound_file("helix", Size::Small, 5)
    );
    let arguments = ["--kind", "towers", "--seed", "5", "--size", "large"];
    assert_eq!(
        printed(run(MAKE, &arguments, &[])),
        sound_file("towers", Size::Large, 5)
    );
}

#[test]
fn make_fills_a_folder_with_every_kind() {
    let folder = folder("filled");
    let names: Vec<_> = KINDS
        .iter()
        .map(|kind| kind.name)
        .chain(DAMAGES.iter().map(|damage| damage.name))
        .collect();
    let count = names.len().to_string();
    let arguments = [
        "--out",
        folder.to_str().unwrap(),
        "--seed",
        "100",
        "--count",
        &count,
    ];
    assert_eq!(printed(run(MAKE, &arguments, &[])), b"");
    assert_eq!(fs::read_dir(&folder).unwrap().count(), names.len());
    for (seed, name) in (100..).zip(names) {
        let bytes = fs::read(folder.join(format!("{name}-{seed}.field"))).unwrap();
        let answer = listing::answer(&bytes, Limits::PROGRAM);
        let expected = oracle::damage::damage(name).map(|damage| format!("{}\n", damage.refusal));
        match expected {
            Some(line) => assert_eq!(answer, line, "{name}"),
            None => assert_eq!(bytes, sound_file(name, Size::Small, seed), "{name}"),
        }
    }
}

#[test]
fn make_lists_every_kind() {
    let list = String::from_utf8(printed(run(MAKE, &["--list"], &[]))).unwrap();
    let listed: Vec<_> = list
        .lines()
        .map(|line| line.split(' ').next().unwrap())
        .collect();
    let names: Vec<_> = KINDS
        .iter()
        .map(|kind| kind.name)
        .chain(DAMAGES.iter().map(|damage| damage.name))
        .collect();
    assert_eq!(listed, names);
}

#[test]
fn help_is_printed() {
    for (program, line) in [(ANSWER, "usage: answer "), (MAKE, "usage: make ")] {
        let help = String::from_utf8(printed(run(program, &["--help"], &[]))).unwrap();
        assert!(help.starts_with(line), "{help}");
    }
}

#[test]
fn mistakes_are_told() {
    let mistakes: [(&str, &[&str], &str); 9] = [
        (
            ANSWER,
            &["no-such-file"],
            "answer: can't read no-such-file: ",
        ),
        (ANSWER, &["--loud"], "answer: unknown option --loud"),
        (ANSWER, &["one", "two"], "answer: one file at most"),
        (MAKE, &["--kind", "castle"], "make: no kind castle"),
        (MAKE, &["--size", "huge"], "make: huge is not a size"),
        (MAKE, &["--seed", "x"], "make: x is not a number"),
        (
            MAKE,
            &["--seed"],
            "make: --seed is unknown or lacks its value",
        ),
        (MAKE, &["--count", "2"], "make: several files need --out"),
        (
            MAKE,
            &["--kind", "cut-short", "--size", "large"],
            "make: cut-short is always small",
        ),
    ];
    for (program, arguments, message) in mistakes {
        let output = run(program, arguments, &[]);
        assert!(!output.status.success(), "{arguments:?}");
        assert_eq!(output.stdout, b"", "{arguments:?}");
        let told = String::from_utf8(output.stderr).unwrap();
        assert!(told.starts_with(message), "{told}");
    }
}

#[test]
fn limits_prints_what_the_repository_stores_for_the_proved_program() {
    let stored = concat!(env!("CARGO_MANIFEST_DIR"), "/../../crates/limits/stdout");
    let printed = Command::new(env!("CARGO_BIN_EXE_limits"))
        .output()
        .expect("limits runs")
        .stdout;
    assert_eq!(
        String::from_utf8(printed).expect("text"),
        fs::read_to_string(stored).expect("the stored output")
    );
}
