//! Files of levels and answers, and the marks that a counting emulator sees.

use crate::run::{self, Answer, Entries};
use oracle::{
    field::Case,
    file::{self, Limits},
};
use std::{env, ffi::OsStr, fs, path::Path};

/// The field files *.field of a folder, by name, as [`write_levels`] writes levels. One that can't be measured is told and left out: it is no field file, the library refuses it,
/// so that the unchanged Rust can't be asked, or it has no spans. Gives whether any is left.
pub fn write_files(from: &str, folder: &str) -> bool {
    let mut files: Vec<_> = (fs::read_dir(from).expect("can read the folder"))
        .map(|entry| entry.expect("can read the folder").path())
        .filter(|path| path.extension() == Some(OsStr::new("field")))
        .collect();
    files.sort();
    let mut levels = Vec::new();
    for path in files {
        match measurable(&path) {
            // the tables' columns are parted by this sign
            Ok(case) => levels.push((name_of(&path).replace('|', "_"), case)),
            Err(why) => eprintln!("bench: {} is left out: {why}", path.display()),
        }
    }
    let any = !levels.is_empty();
    write_levels(folder, levels);
    any
}

fn name_of(path: &Path) -> String {
    path.file_stem()
        .unwrap_or_default()
        .to_string_lossy()
        .into_owned()
}

fn measurable(path: &Path) -> Result<Case, String> {
    let bytes = fs::read(path).map_err(|error| error.to_string())?;
    let case = file::read(&bytes, Limits::FORMAT).map_err(|refusal| refusal.to_string())?;
    if case.field.spans() == 0 {
        return Err("it has no spans".to_owned());
    }
    run::refused(&case).map_or(Ok(case), |refusal| Err(refusal.to_string()))
}

/// Writes NUMBER.field, NUMBER.answer (the Rust's numbers) and NUMBER.dense (the same answer in the dense form) for each level to a folder, and prints
/// a line for each: its number, its number of spans, its name.
pub fn write_levels(folder: &str, levels: Vec<(String, Case)>) {
    for (number, (name, case)) in levels.into_iter().enumerate() {
        let stem = Path::new(folder).join(number.to_string());
        let answer = run::rust(&case, Entries::Both, |_| ());
        fs::write(stem.with_extension("field"), file::write(&case)).expect("can write a level");
        fs::write(stem.with_extension("answer"), bytes(&answer)).expect("can write an answer");
        fs::write(stem.with_extension("dense"), bytes(&answer.dense()))
            .expect("can write an answer");
        println!("{number} {} {name}", case.field.spans());
    }
}

/// The level of a file.
pub fn read_level(path: &str) -> Case {
    file::read(&fs::read(path).expect("can read a level"), Limits::FORMAT).expect("a level")
}

/// The numbers of an answer, little-endian: max_distance, the distances, and if the region entry was run max_region and the ids.
fn bytes(answer: &Answer) -> Vec<u8> {
    let mut numbers = vec![answer.max_distance];
    numbers.extend(&answer.distances);
    if let Some(regions) = &answer.regions {
        numbers.push(regions.max_region);
        numbers.extend(&regions.ids);
    }
    numbers
        .iter()
        .flat_map(|number| number.to_le_bytes())
        .collect()
}

/// Stops where an answer is not the one that was written for the level, in the form "answer" or "dense".
pub fn compare(path: &str, form: &str, answer: &Answer) {
    let written =
        fs::read(Path::new(path).with_extension(form)).expect("can read the level's answer");
    assert!(
        written.starts_with(&bytes(answer)),
        "{path}: the answers are not the same"
    );
}

/// A mark for a counting emulator (bench/count.c), where SIDE_MARKS is set: a call of the system that there is none of.
pub fn mark(number: u64) {
    #[cfg(all(target_arch = "x86_64", target_os = "linux"))]
    if env::var_os("SIDE_MARKS").is_some() {
        // SAFETY: Linux answers an unknown number with ENOSYS and does nothing.
        unsafe {
            core::arch::asm!("syscall", inlateout("rax") 0x5e1_u64 => _, in("rdi") number, out("rcx") _, out("r11") _);
        }
    }
    #[cfg(not(all(target_arch = "x86_64", target_os = "linux")))]
    let _ = (number, env::var_os("SIDE_MARKS"));
}
