//! Stored results of a level: both conversions beside a copy and zstd, and one span's id beside a full read. Times alone.

use crate::run::{Entries, gussetraft};
use gussetraft::results::{id_at, id_at_whole, pack, unpack};
use oracle::{field::Case, stored};
use std::{
    ffi::{c_char, c_int, c_void},
    hint::black_box,
    time::Instant,
};

/// Turns of each.
const TURNS: usize = 21;

/// How many spans are asked for, as far from each other as they can be.
const ASKED: usize = 64;

unsafe extern "C" {
    fn dlopen(path: *const c_char, flags: c_int) -> *mut c_void;
    fn dlsym(library: *mut c_void, name: *const c_char) -> *mut c_void;
}

type Compress = unsafe extern "C" fn(*mut u8, usize, *const u8, usize, c_int) -> usize;
type Decompress = unsafe extern "C" fn(*mut u8, usize, *const u8, usize) -> usize;

/// zstd's functions, where its library is.
fn zstd() -> Option<(Compress, Decompress)> {
    const NOW: c_int = 2;
    // SAFETY: the functions of zstd's library have these types.
    unsafe {
        let library = dlopen(c"libzstd.so.1".as_ptr(), NOW);
        if library.is_null() {
            return None;
        }
        let compress = dlsym(library, c"ZSTD_compress".as_ptr());
        let decompress = dlsym(library, c"ZSTD_decompress".as_ptr());
        if compress.is_null() || decompress.is_null() {
            return None;
        }
        Some((
            std::mem::transmute::<*mut c_void, Compress>(compress),
            std::mem::transmute::<*mut c_void, Decompress>(decompress),
        ))
    }
}

/// The least nanoseconds of a call.
fn least(mut call: impl FnMut()) -> u128 {
    let turn = |_| {
        let begun = Instant::now();
        call();
        begun.elapsed().as_nanos()
    };
    (0..TURNS).map(turn).min().unwrap_or(0)
}

/// The bytes of both forms; nanoseconds of pack, unpack and a copy of the old form; zstd's bytes at level 1, and nanoseconds there and back, `-` where it
/// is not; nanoseconds of one span's id, by one stretch and by a full read. Stops where an answer is not the model's.
pub fn timed(case: &Case) -> String {
    let answer = gussetraft(case, Entries::Both, |_| ());
    let ids = answer.regions.expect("the region entry").ids;
    let old = stored::old_form(&ids);
    let new = stored::new_form(&stored::runs_of(&ids));
    let (mut out, mut back) = (vec![0; new.len()], vec![0; old.len()]);
    let packing = least(|| assert_eq!(pack(black_box(&old), &mut out), Ok(new.len())));
    assert_eq!(out, new);
    let unpacking = least(|| assert_eq!(unpack(black_box(&new), &mut back), Ok(old.len())));
    assert_eq!(back, old);
    let copying = least(|| black_box(&mut back).copy_from_slice(black_box(&old)));

    let asked: Vec<u32> = (0..ASKED).map(|i| (i * ids.len() / ASKED) as u32).collect();
    for &span in &asked {
        let right = Ok(ids[span as usize]);
        assert_eq!(id_at(&new, span).id, right);
        assert_eq!(id_at_whole(&new, span), id_at(&new, span));
    }
    let read =
        |reader: &dyn Fn(u32)| least(|| asked.iter().for_each(|&s| reader(s))) / ASKED as u128;
    let one = read(&|span| {
        black_box(id_at(black_box(&new), span));
    });
    let whole = read(&|span| {
        black_box(id_at_whole(black_box(&new), span));
    });

    let zstd = zstd().map(|(compress, decompress)| {
        let mut small = vec![0; old.len() + old.len() / 128 + 1024];
        let mut length = 0;
        // SAFETY: both lists are lent with their lengths.
        let there = least(|| unsafe {
            length = compress(small.as_mut_ptr(), small.len(), old.as_ptr(), old.len(), 1);
        });
        back.fill(0);
        // SAFETY: as above.
        let again = least(|| unsafe {
            decompress(back.as_mut_ptr(), back.len(), small.as_ptr(), length);
        });
        assert_eq!(back, old);
        format!("{length} {there} {again}")
    });
    format!(
        "{} {} {packing} {unpacking} {copying} {} {one} {whole}",
        old.len(),
        new.len(),
        zstd.unwrap_or("- - -".to_owned())
    )
}
