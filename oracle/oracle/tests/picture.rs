//! `tools/picture`, run as a user runs it.

use std::{
    fs,
    io::Write,
    path::{Path, PathBuf},
    process::{Command, Output, Stdio},
};

fn root() -> PathBuf {
    Path::new(env!("CARGO_MANIFEST_DIR")).join("../..")
}

fn picture(size: &str, listing: &str) -> Output {
    let mut child = Command::new("sh")
        .arg(root().join("tools/picture"))
        .arg(size)
        .stdin(Stdio::piped())
        .stdout(Stdio::piped())
        .stderr(Stdio::piped())
        .spawn()
        .expect("sh starts");
    // A program that ends without reading closes the pipe.
    let _ = child
        .stdin
        .take()
        .expect("a pipe")
        .write_all(listing.as_bytes());
    child.wait_with_output().expect("the program ends")
}

/// The width, the height and the pixels.
fn drawn(size: &str, listing: &str) -> (usize, usize, Vec<String>) {
    let output = picture(size, listing);
    assert!(output.status.success(), "{output:?}");
    let text = String::from_utf8(output.stdout).expect("text");
    let mut lines = text.lines();
    assert_eq!(lines.next(), Some("P3"));
    let sides: Vec<usize> = lines
        .next()
        .expect("the sides")
        .split(' ')
        .map(|side| side.parse().expect("a number"))
        .collect();
    assert_eq!(lines.next(), Some("255"));
    let pixels: Vec<_> = lines.map(str::to_owned).collect();
    assert_eq!(pixels.len(), sides[0] * sides[1]);
    (sides[0], sides[1], pixels)
}

#[test]
fn layers_lie_beside_each_other() {
    let listing = fs::read_to_string(root().join("samples/tower.listing")).expect("a sample");
    let (w, h, pixels) = drawn("1", &listing);
    assert_eq!((w, h), (7 + 1 + 7, 8));
    let at = |x: usize, z: usize| pixels[x + z * w].as_str();
    let (ground, upper) = (at(0, 0), at(8, 0));
    assert_ne!(ground, upper);
    assert_eq!(at(7, 0), "255 255 255");
    let stairs: Vec<_> = (0..7).map(|x| at(x, 7)).collect();
    let black = "0 0 0";
    assert_eq!(stairs, [black, ground, ground, ground, upper, upper, black]);
    assert_eq!(at(9, 7), black);
}

#[test]
fn regions_that_touch_differ_in_colour() {
    let row = |z: u32| -> Vec<String> { (1..=40).map(|x| (40 * z + x).to_string()).collect() };
    let rows: Vec<_> = (0..40).map(|z| row(z).join(" ")).collect();
    let listing = format!(
        "max_distance 2 max_region 1601 overlaps 0 cut 0\n{}\n",
        rows.join("\n")
    );
    let (w, h, pixels) = drawn("1", &listing);
    assert_eq!((w, h), (40, 40));
    for place in 0..w * h - w - 1 {
        let beside = [1, w - 1, w, w + 1];
        let at_side = |next: usize| place % w + 1 == w && (next == 1 || next == w + 1);
        let at_other_side = |next: usize| place % w == 0 && next == w - 1;
        for next in beside {
            if !at_side(next) && !at_other_side(next) {
                assert_ne!(pixels[place], pixels[place + next], "{place} {next}");
            }
        }
    }
}

#[test]
fn strips_are_hatched_and_id_0_is_dark() {
    let (w, _, pixels) = drawn(
        "4",
        "max_distance 2 max_region 6 overlaps 0 cut 0\n32769 0 5\n",
    );
    assert_eq!(w, 12);
    assert_ne!(pixels[0], pixels[2]);
    assert!(pixels[4..8].iter().all(|pixel| *pixel == "48 48 56"));
}

#[test]
fn what_is_no_listing_is_told() {
    for (size, input) in [
        ("8", "refused 6\n"),
        ("8", ""),
        ("8", "1 1 1\n"),
        ("8", "max_distance 0 max_region 1 overlaps 0 cut 0\n"),
        ("8", "max_distance 0 max_region 1 overlaps 0 cut 0\n\n\n"),
        (
            "8",
            "max_distance 0 max_region 1 overlaps 0 cut 0\n1 1\n1\n",
        ),
        ("8", "max_distance 0 max_region 1 overlaps 0 cut 0\nx\n"),
        ("big", "max_distance 0 max_region 1 overlaps 0 cut 0\n1\n"),
    ] {
        let output = picture(size, input);
        assert!(!output.status.success(), "{input:?}");
        assert!(output.stdout.is_empty(), "{input:?}");
        assert!(!output.stderr.is_empty(), "{input:?}");
    }
}
