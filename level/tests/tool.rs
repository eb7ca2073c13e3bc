//! The tool on files of every kind: what it writes, beside the unchanged Rust and tools/picture; what it tells, and with which status.

use gussetraft::results::unpack;
use oracle::{
    damage::DAMAGES,
    field::{Case, Field},
    file::{self, Limits},
    levels::{KINDS, Size},
    listing, run,
};
use std::{
    fs,
    io::Write,
    path::{Path, PathBuf},
    process::{Command, Output, Stdio},
};

const TOOL: &str = env!("CARGO_BIN_EXE_gussetraft-level");

/// A folder of its own, empty, for a test.
fn folder(name: &str) -> PathBuf {
    let path = Path::new(env!("CARGO_TARGET_TMPDIR")).join(name);
    let _ = fs::remove_dir_all(&path);
    fs::create_dir_all(&path).expect("can make a folder");
    path
}

fn root() -> PathBuf {
    Path::new(env!("CARGO_MANIFEST_DIR")).join("..")
}

/// The tool run in a folder: its status, what it told and, which must be nothing where no terminal is, what it showed.
fn tool(at: &Path, words: &[&str]) -> (i32, String) {
    let Output {
        status,
        stdout,
        stderr,
    } = Command::new(TOOL)
        .args(words)
        .current_dir(at)
        .output()
        .expect("can run the tool");
    assert_eq!(
        String::from_utf8_lossy(&stderr),
        "",
        "{words:?}: standard error"
    );
    (
        status.code().expect("a status"),
        String::from_utf8(stdout).expect("text"),
    )
}

fn read(path: PathBuf) -> Vec<u8> {
    fs::read(&path).unwrap_or_else(|error| panic!("{}: {error}", path.display()))
}

/// The names in a folder, those that begin with a dot too.
fn names(folder: &Path) -> Vec<String> {
    let mut names: Vec<_> = (fs::read_dir(folder).expect("can read a folder"))
        .map(|entry| {
            entry
                .expect("an entry")
                .file_name()
                .into_string()
                .expect("text")
        })
        .collect();
    names.sort();
    names
}

/// Files of every kind in a folder, small ones and larger ones; gives their names and bytes.
fn sound(at: &Path) -> Vec<(String, Vec<u8>)> {
    let mut files = Vec::new();
    for kind in &KINDS {
        for (size, seeds) in [(Size::Small, 0..4), (Size::Medium, 4..5)] {
            for seed in seeds {
                let (name, bytes) = (
                    format!("{}-{seed}", kind.name),
                    file::write(&kind.make(size, seed)),
                );
                fs::write(at.join(&name).with_extension("field"), &bytes).expect("can write");
                files.push((name, bytes));
            }
        }
    }
    files
}

#[test]
fn listings_of_the_samples() {
    let (samples, out) = (root().join("samples"), folder("samples"));
    let (status, told) = tool(
        &samples,
        &["-j", "2", "-o", out.to_str().expect("text"), "."],
    );
    assert_eq!(status, 1);
    let mut listings = 0;
    for name in names(&samples)
        .iter()
        .filter_map(|name| name.strip_suffix(".field").map(str::to_owned))
    {
        let stored = read(samples.join(format!("{name}.listing")));
        let path = out.join(format!("{name}.listing"));
        if stored.starts_with(b"refused ") {
            assert!(!path.exists(), "{name} was refused and has a listing");
            let number = String::from_utf8(stored).expect("text");
            assert!(
                told.contains(&format!("./{name}.field: {}: ", number.trim_end())),
                "{name}: {told}"
            );
        } else {
            assert_eq!(read(path), stored, "{name}");
            listings += 1;
        }
    }
    assert!(listings >= 9, "only {listings} listings");
    assert!(
        told.ends_with(&format!("{listings} done, 1 refused, 0 failed\n")),
        "{told}"
    );
}

#[test]
fn listings_of_every_kind_with_any_number_of_workers() {
    let at = folder("kinds");
    let files = sound(&at);
    for workers in ["1", "5"] {
        let (status, told) = tool(&at, &["-j", workers, "-o", workers, "."]);
        assert_eq!(
            (status, told),
            (0, format!("{} done, 0 refused, 0 failed\n", files.len()))
        );
        for (name, bytes) in &files {
            let listing = read(at.join(workers).join(format!("{name}.listing")));
            let expected = listing::answer(bytes, Limits::FORMAT);
            assert!(
                listing == expected.as_bytes(),
                "{name}: not the listing of the unchanged Rust"
            );
        }
        assert_eq!(
            names(&at.join(workers)).len(),
            files.len(),
            "something was left behind"
        );
    }
}

#[test]
fn stored_results_of_every_kind() {
    let at = folder("stored");
    let files = sound(&at);
    assert_eq!(tool(&at, &["-q", "--store", "."]), (0, String::new()));
    for (name, bytes) in &files {
        let Case { field, settings } = file::read(bytes, Limits::FORMAT).expect("a sound file");
        let (_, regions) = run::both(&field, settings).expect("a sound field");
        let mut old: Vec<u8> = regions
            .ids
            .iter()
            .flat_map(|id| [5, id.to_le_bytes()[0], id.to_le_bytes()[1]])
            .collect();
        old.push(4);
        // beside the input, since no folder was named
        let stored = read(at.join(format!("{name}.runs")));
        let mut back = vec![0; old.len()];
        assert_eq!(unpack(&stored, &mut back), Ok(old.len()), "{name}");
        assert!(back == old, "{name}: not the ids of the unchanged Rust");
    }
}

/// The width, the height and the pixels of a picture in either PPM format.
fn pixels(picture: &[u8]) -> (usize, usize, Vec<u8>) {
    let mut at = 0;
    let mut word = || {
        let start = at;
        while !picture[at].is_ascii_whitespace() {
            at += 1;
        }
        at += 1;
        std::str::from_utf8(&picture[start..at - 1])
            .expect("text")
            .to_owned()
    };
    let (kind, w, h, most) = (word(), word(), word(), word());
    assert_eq!(most, "255");
    let rest = &picture[at..];
    let pixels = match kind.as_str() {
        "P6" => rest.to_vec(),
        "P3" => (std::str::from_utf8(rest).expect("text").split_whitespace())
            .map(|number| number.parse().expect("a number"))
            .collect(),
        _ => panic!("a picture of kind {kind}"),
    };
    (
        w.parse().expect("a number"),
        h.parse().expect("a number"),
        pixels,
    )
}

#[test]
fn pictures_are_those_of_tools_picture() {
    let at = folder("pictures");
    let mut all = 0;
    for kind in &KINDS {
        // up to 6, some have a border, several layers, or no cells
        for seed in 0..6 {
            let case = kind.make(Size::Small, seed);
            let name = format!("{}-{seed}", kind.name);
            if case.field.cells() > 0 {
                fs::write(at.join(format!("{name}.field")), file::write(&case)).expect("can write");
                all += 1;
            }
        }
    }
    assert_eq!(tool(&at, &["."]).0, 0);
    for (size, folder) in [("8", "eight"), ("3", "three")] {
        let (status, told) = tool(&at, &["--picture", "--size", size, "-o", folder, "."]);
        assert_eq!(
            (status, told),
            (0, format!("{all} done, 0 refused, 0 failed\n"))
        );
        for name in names(&at.join(folder)) {
            let listing = read(at.join(&name).with_extension("listing"));
            let mut drawing = Command::new(root().join("tools/picture"))
                .arg(size)
                .stdin(Stdio::piped())
                .stdout(Stdio::piped())
                .spawn()
                .expect("can run tools/picture");
            drawing
                .stdin
                .take()
                .expect("its input")
                .write_all(&listing)
                .expect("can write to it");
            let drawn = drawing.wait_with_output().expect("its picture");
            assert!(drawn.status.success(), "{name}: tools/picture failed");
            let picture = read(at.join(folder).join(&name));
            assert!(
                pixels(&picture) == pixels(&drawn.stdout),
                "{name}: not the picture that tools/picture draws"
            );
        }
    }
}

#[test]
fn a_field_without_cells_has_a_listing_and_no_picture() {
    let at = folder("empty");
    let case = Case::default();
    fs::write(at.join("none.field"), file::write(&case)).expect("can write");
    assert_eq!(tool(&at, &["-q", "."]), (0, String::new()));
    assert_eq!(
        read(at.join("none.listing")),
        b"max_distance 0 max_region 0 overlaps 0 cut 0\n"
    );
    assert_eq!(
        tool(&at, &["-q", "--picture", "."]),
        (1, "./none.field: there are no cells to draw\n".to_owned())
    );
}

#[test]
fn damaged_files_stop_nothing() {
    let at = folder("damaged");
    let files = sound(&at);
    let mut refused = Vec::new();
    // these two are beyond the limits of document 01's program, and not of this one
    let larger = ["too-many-cells", "too-many-spans"];
    for damage in DAMAGES
        .iter()
        .filter(|damage| !larger.contains(&damage.name))
    {
        let name = format!("damaged-{}", damage.name);
        fs::write(at.join(format!("{name}.field")), damage.make(3)).expect("can write");
        // what an earlier run has left
        fs::write(at.join(format!("{name}.listing")), "old\n").expect("can write");
        refused.push((name, damage.refusal.to_string()));
    }
    let (status, told) = tool(&at, &["-j", "3", "."]);
    assert_eq!(status, 1);
    let lines: Vec<_> = told.lines().collect();
    assert_eq!(lines.len(), refused.len() + 1, "{told}");
    for (name, refusal) in &refused {
        let begins = format!("./{name}.field: {refusal}");
        let line = lines
            .iter()
            .find(|line| line.starts_with(&begins))
            .unwrap_or_else(|| panic!("{begins} is not told in {told}"));
        let rest = &line[begins.len()..];
        assert_eq!(
            refusal == "refused 20",
            rest.starts_with(" at byte "),
            "{line}"
        );
        let (_, meaning) = rest.split_once(": ").expect("a meaning");
        assert!(meaning.len() > 10, "{line}");
        assert!(
            !at.join(format!("{name}.listing")).exists(),
            "{name} has a listing"
        );
    }
    assert_eq!(
        lines[refused.len()],
        format!("{} done, {} refused, 0 failed", files.len(), refused.len())
    );
    for (name, _) in &files {
        assert!(
            at.join(format!("{name}.listing")).exists(),
            "{name} has no listing"
        );
    }
    // the same again, one worker: the same told, in the same order
    assert_eq!(tool(&at, &["-j", "1", "."]), (1, told));
}

#[test]
fn fields_at_the_limits() {
    let at = folder("limits");
    let wide = |w, h| {
        file::write(&Case {
            field: Field::open(w, h),
            ..Case::default()
        })
    };
    // 256 by 254 cells are 65,024; the 65,001st span is refused at its cell, after a header of 11 bytes and 65,000 cells of 8
    fs::write(at.join("high.field"), wide(1, 257)).expect("can write");
    fs::write(at.join("spans.field"), wide(256, 254)).expect("can write");
    fs::write(at.join("cells.field"), wide(257, 256)).expect("can write");
    // and 65,000 spans: the last row ends at column 232
    let mut most = Field::open(256, 254);
    for cell in 65_000..65_024 {
        most.count[cell] = 0;
    }
    most.area.truncate(65_000);
    most.con.truncate(4 * 65_000);
    for span in 0..65_000 {
        // the row before it leads down as far
        if span % 256 >= 232 && span / 256 == 252 {
            most.con[4 * span + 1] = 255;
        }
    }
    most.con[4 * 64_999 + 2] = 255;
    fs::write(
        at.join("most.field"),
        file::write(&Case {
            field: most,
            ..Case::default()
        }),
    )
    .expect("can write");
    let (status, told) = tool(&at, &["."]);
    assert_eq!(
        (status, told.as_str()),
        (
            1,
            "./cells.field: refused 21 at byte 0: the file's field has more cells or spans than the loader takes\n\
             ./high.field: refused 1: the width or the height is above 256\n\
             ./spans.field: refused 21 at byte 520011: the file's field has more cells or spans than the loader takes\n\
             1 done, 3 refused, 0 failed\n"
        )
    );
    let expected = listing::answer(&read(at.join("most.field")), Limits::FORMAT);
    assert!(
        read(at.join("most.listing")) == expected.as_bytes(),
        "not the listing of the unchanged Rust"
    );
}

#[test]
fn what_cannot_be_read_or_written_is_told_and_stops_nothing() {
    let at = folder("unreadable");
    let case = KINDS[0].make(Size::Small, 1);
    fs::write(at.join("good.field"), file::write(&case)).expect("can write");
    fs::write(at.join("odd name"), file::write(&case)).expect("can write");
    fs::write(at.join("blocked.field"), file::write(&case)).expect("can write");
    fs::create_dir_all(at.join("blocked.listing/full")).expect("can make a folder");
    let (status, told) = tool(
        &at,
        &["missing.field", "good.field", "blocked.field", "odd name"],
    );
    assert_eq!(status, 2);
    let lines: Vec<_> = told.lines().collect();
    assert!(
        lines[0].starts_with("missing.field: can't read missing.field: "),
        "{told}"
    );
    assert!(
        lines[1].starts_with("blocked.field: can't write blocked.listing: "),
        "{told}"
    );
    assert_eq!(lines[2..], ["2 done, 0 refused, 2 failed"]);
    // nothing half written is left
    assert_eq!(
        names(&at),
        [
            "blocked.field",
            "blocked.listing",
            "good.field",
            "good.listing",
            "odd name",
            "odd name.listing"
        ]
    );
}

#[test]
fn wrong_words_begin_nothing() {
    let at = folder("words");
    let case = KINDS[0].make(Size::Small, 1);
    fs::create_dir_all(at.join("other")).expect("can make a folder");
    for path in ["a.field", "other/a.field"] {
        fs::write(at.join(path), file::write(&case)).expect("can write");
    }
    for (words, why) in [
        (&[][..], "no file named"),
        (
            &["-j", "0", "a.field"],
            "-j takes a number from 1 to 1024, not 0",
        ),
        (&["-j"], "-j lacks its value"),
        (
            &["--store", "--listing", "a.field"],
            "one of --listing, --store and --picture at a time",
        ),
        (&["--size", "2", "a.field"], "--size is for --picture"),
        (&["--fast", "a.field"], "unknown option --fast"),
        (
            &["-o", "out", "a.field", "other"],
            "a.field and other/a.field would both be out/a.listing",
        ),
    ] {
        let output = Command::new(TOOL)
            .args(words)
            .current_dir(&at)
            .output()
            .expect("can run the tool");
        assert_eq!(output.status.code(), Some(2), "{words:?}");
        assert_eq!(
            String::from_utf8_lossy(&output.stderr),
            format!("gussetraft-level: {why}; --help tells more\n")
        );
        assert_eq!(names(&at), ["a.field", "other"], "{words:?} has begun");
    }
    let help = Command::new(TOOL)
        .arg("--help")
        .output()
        .expect("can run the tool");
    assert!(help.status.success() && help.stdout.starts_with(b"usage: "));
}
