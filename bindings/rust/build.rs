//! Finds the archive of the target: in the folder that GUSSETRAFT_LIB_DIR names; otherwise where `tools/targets` writes it, and for x86-64 Linux first where
//! `tools/archive` does, which is never older.

use std::{
    env,
    path::{Path, PathBuf},
    process::exit,
};

/// The folder of the archive under target/dist, and its name.
struct Archive {
    folder: &'static str,
    name: &'static str,
}

fn main() {
    println!("cargo:rerun-if-env-changed=GUSSETRAFT_LIB_DIR");
    let target = env::var("TARGET").unwrap_or_default();
    let Some(archive) = archive_of(&target) else {
        stop(&format!(
            "there is no archive for {target}. There are those of x86-64 and 64-bit Arm Linux, x86-64 Windows (gnu and msvc) and macOS on Arm."
        ));
    };
    let named = env::var_os("GUSSETRAFT_LIB_DIR").filter(|folder| !folder.is_empty());
    let made = Path::new(env!("CARGO_MANIFEST_DIR")).join("../../target");
    let folders = match &named {
        Some(folder) => vec![PathBuf::from(folder)],
        None if archive.folder == "x86_64-unknown-linux-gnu" => {
            vec![
                made.join("staticlib"),
                made.join("dist").join(archive.folder),
            ]
        }
        None => vec![made.join("dist").join(archive.folder)],
    };
    for folder in &folders {
        println!(
            "cargo:rerun-if-changed={}",
            folder.join(archive.name).display()
        );
    }
    let Some(folder) = folders
        .iter()
        .find(|folder| folder.join(archive.name).is_file())
    else {
        let place = if named.is_some() {
            "GUSSETRAFT_LIB_DIR names a folder that does not hold it"
        } else {
            "GUSSETRAFT_LIB_DIR is not set"
        };
        stop(&format!(
            "there is no {} ({place}). Write it with `tools/targets {}` at the root of the Gussetraft repository, \
             or set GUSSETRAFT_LIB_DIR to the absolute path of the folder that holds {}.",
            folders[folders.len() - 1].join(archive.name).display(),
            archive.folder,
            archive.name
        ));
    };
    println!("cargo:rustc-link-search=native={}", folder.display());
    println!("cargo:rustc-link-lib=static=gussetraft");
}

/// The archive that links for a target of Rust, if there is one. The code calls memset (on macOS bzero) and nothing else, so the C library does not matter.
fn archive_of(target: &str) -> Option<Archive> {
    let of = |folder, name| Some(Archive { folder, name });
    let on = |machine: &str, system: &str| target.starts_with(machine) && target.contains(system);
    // x86_64-unknown-linux-gnux32 has pointers of 32 bits.
    if on("x86_64-", "-linux-") && !target.ends_with("x32") {
        of("x86_64-unknown-linux-gnu", "libgussetraft.a")
    } else if on("aarch64-", "-linux-") && !target.ends_with("ilp32") {
        of("aarch64-unknown-linux-gnu", "libgussetraft.a")
    } else if on("x86_64-", "-windows-gnu") {
        of("x86_64-pc-windows-gnu", "libgussetraft.a")
    } else if on("x86_64-", "-windows-msvc") {
        of("x86_64-pc-windows-msvc", "gussetraft.lib")
    } else if target == "aarch64-apple-darwin" {
        of("arm64-apple-macosx", "libgussetraft.a")
    } else {
        None
    }
}

fn stop(why: &str) -> ! {
    eprintln!("\ngussetraft: {why}\n");
    exit(1)
}
