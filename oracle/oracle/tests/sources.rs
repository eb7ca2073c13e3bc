//! The three files of rerecast are unchanged.

use std::{fs, path::Path};

/// Digests of the files as rerecast has them, written here a second time: the list beside the files could be edited
/// together with them.
const DIGESTS: [(&str, &str); 3] = [
    (
        "src/region.rs",
        "b5401ea3f91819a266c84606719b2ba78c7ab4b5dc9c413c0359d7f22f0d2be0",
    ),
    (
        "src/watershed_distance_field.rs",
        "21ece0bcc464a72d2d971ed6d46d5f665086e306cc4107124898a5295baaad02",
    ),
    (
        "src/watershed_build_regions.rs",
        "6bf8b9d6438d0b6c1951ed2e00c6d016ebbf342fdeeac13b253ef25cde7ca320",
    ),
];

fn rerecast_file(path: &str) -> Vec<u8> {
    let folder = Path::new(env!("CARGO_MANIFEST_DIR")).join("../rerecast");
    fs::read(folder.join(path)).expect("the file is part of the workspace")
}

#[test]
fn files_are_unchanged() {
    for (path, digest) in DIGESTS {
        assert_eq!(sha256::hex_digest(&rerecast_file(path)), digest, "{path}");
    }
}

#[test]
fn build_script_checks_the_same_digests() {
    let lines: String = DIGESTS
        .iter()
        .map(|(path, digest)| format!("{digest}  {path}\n"))
        .collect();
    assert_eq!(
        String::from_utf8(rerecast_file("SHA256SUMS")).unwrap(),
        lines
    );
}

/// The unchanged addition panics when overflow checks are on, as they are in the test profile.
#[test]
#[cfg(debug_assertions)]
#[should_panic(expected = "attempt to add with overflow")]
fn overflow_checks_are_on() {
    let _ = rerecast::RegionId::MAX + 1;
}
