//! Refuses to build if a ported file was edited, and opens the private raw distances to a reader.

use std::{env, fs, path::Path};

const SUMS: &str = "SHA256SUMS";
const DISTANCE_FILE: &str = "src/watershed_distance_field.rs";

/// Put behind the unchanged text, since a private function is only seen from within its own module.
const ACCESSOR: &str = "
impl CompactHeightfield {
    /// The distances before the blur.
    pub fn raw_distances(&self) -> Vec<u16> {
        self.calculate_distance_field()
    }
}
";

fn main() {
    check_sums();
    write_distance_module(Path::new(&env::var("OUT_DIR").expect("cargo sets OUT_DIR")));
}

fn check_sums() {
    println!("cargo::rerun-if-changed={SUMS}");
    for line in read(SUMS).lines() {
        let (digest, path) = line.split_once("  ").expect("a digest and a path");
        println!("cargo::rerun-if-changed={path}");
        assert_eq!(
            sha256::hex_digest(read(path).as_bytes()),
            digest,
            "{path} was edited"
        );
    }
}

/// Writes the distance file with the accessor behind it, and a `mod` item that `lib.rs` includes. (The file can't be
/// included itself: it opens with inner documentation.)
fn write_distance_module(out_dir: &Path) {
    let copy = out_dir.join("watershed_distance_field.rs");
    let item = format!("#[path = {copy:?}]\nmod watershed_distance_field;\n");
    write(&copy, &(read(DISTANCE_FILE) + ACCESSOR));
    write(&out_dir.join("distance_module.rs"), &item);
}

fn read(path: &str) -> String {
    fs::read_to_string(path).unwrap_or_else(|error| panic!("{path}: {error}"))
}

fn write(path: &Path, text: &str) {
    fs::write(path, text).unwrap_or_else(|error| panic!("{}: {error}", path.display()));
}
