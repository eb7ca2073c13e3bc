//! Time: the libraries in turn in one process, each level many times, the least of them.

use crate::run;
use gussetraft::workspace_len;
use oracle::field::Case;
use std::{
    ffi::{CStr, CString, c_char, c_int, c_void},
    ptr, slice,
    time::{Duration, Instant},
};

/// Turns of each level.
const TURNS: usize = 21;

unsafe extern "C" {
    fn dlopen(path: *const c_char, flags: c_int) -> *mut c_void;
    fn dlsym(library: *mut c_void, name: *const c_char) -> *mut c_void;
    fn mmap(
        at: *mut c_void,
        len: usize,
        prot: c_int,
        flags: c_int,
        fd: c_int,
        off: i64,
    ) -> *mut c_void;
    fn munmap(at: *mut c_void, len: usize) -> c_int;
}

/// The least time of each entry of a library; nothing for one that is not there.
#[derive(Debug, Default)]
pub struct Times {
    /// Gussetraft's distance entry.
    pub distance: Option<Duration>,
    /// Its region entry, over a workspace that is kept.
    pub kept: Option<Duration>,
    /// The same over one that is mapped for the call and given back after it.
    pub fresh: Option<Duration>,
    /// The unchanged Rust's distances.
    pub rust_distance: Option<Duration>,
    /// Its regions.
    pub rust_regions: Option<Duration>,
    /// C++ Recast's distances.
    pub recast_distance: Option<Duration>,
    /// Its regions.
    pub recast_regions: Option<Duration>,
}

fn least(best: &mut Option<Duration>, time: Duration) {
    *best = Some(best.map_or(time, |old| old.min(time)));
}

/// C++ Recast, from a library that bench/recast.cpp was made into: nanoseconds of both entries on a new heightfield of a level's file.
pub struct Recast(unsafe extern "C" fn(*const c_char, *mut u64));

impl Recast {
    /// The library of that path.
    pub fn load(path: &str) -> Recast {
        const NOW: c_int = 2;
        const NAME: &CStr = c"side_recast_times";
        let path = CString::new(path).expect("a path");
        // SAFETY: the library is bench/recast.cpp's, whose function has this type.
        unsafe {
            let library = dlopen(path.as_ptr(), NOW);
            assert!(!library.is_null(), "can't load {path:?}");
            let function = dlsym(library, NAME.as_ptr());
            assert!(!function.is_null(), "{NAME:?} is not in {path:?}");
            Recast(std::mem::transmute::<
                *mut c_void,
                unsafe extern "C" fn(*const c_char, *mut u64),
            >(function))
        }
    }

    fn times(&self, level: &str) -> (Duration, Duration) {
        let level = CString::new(level).expect("a path");
        let mut nanos = [0; 2];
        // SAFETY: it reads the file and writes two numbers.
        unsafe { (self.0)(level.as_ptr(), nanos.as_mut_ptr()) };
        (
            Duration::from_nanos(nanos[0]),
            Duration::from_nanos(nanos[1]),
        )
    }
}

/// Zeros from the system, untouched, until they are given back.
struct Mapped {
    at: *mut c_void,
    len: usize,
}

impl Mapped {
    fn new(numbers: usize) -> Mapped {
        const READ_WRITE: c_int = 3;
        const PRIVATE_ANONYMOUS: c_int = 0x22;
        let len = 2 * numbers;
        // SAFETY: new memory, which nothing else uses.
        let at = unsafe { mmap(ptr::null_mut(), len, READ_WRITE, PRIVATE_ANONYMOUS, -1, 0) };
        assert!(at as isize != -1, "can't map {len} bytes");
        Mapped { at, len }
    }

    fn numbers(&mut self) -> &mut [u16] {
        // SAFETY: it is mapped, aligned to a page, and lent from here alone.
        unsafe { slice::from_raw_parts_mut(self.at.cast(), self.len / 2) }
    }
}

impl Drop for Mapped {
    fn drop(&mut self) {
        // SAFETY: it was mapped so.
        unsafe { munmap(self.at, self.len) };
    }
}

/// The least times on a level, which is also in a file.
pub fn times(case: &Case, path: &str, recast: Option<&Recast>) -> Times {
    let n = case.field.spans();
    let (field, sizes) = (run::lent(&case.field), run::sizes(case));
    let (mut raw, mut distances, mut ids) = (vec![0; n], vec![0; n], vec![0; n]);
    let mut kept = vec![0; workspace_len(n)];
    let mut best = Times::default();
    for _ in 0..TURNS {
        let begun = Instant::now();
        let most =
            run::side_gussetraft_distance(&field, &mut raw, &mut distances).expect("a sound field");
        least(&mut best.distance, begun.elapsed());

        let begun = Instant::now();
        let answer =
            run::side_gussetraft_regions(&field, &distances, most, &sizes, &mut kept, &mut ids);
        least(&mut best.kept, begun.elapsed());
        answer.expect("a sound field");

        let begun = Instant::now();
        let mut fresh = Mapped::new(workspace_len(n));
        let answer = run::side_gussetraft_regions(
            &field,
            &distances,
            most,
            &sizes,
            fresh.numbers(),
            &mut ids,
        );
        drop(fresh);
        least(&mut best.fresh, begun.elapsed());
        answer.expect("a sound field");

        let mut heightfield = run::heightfield(&case.field);
        let begun = Instant::now();
        run::side_rust_distance(&mut heightfield);
        least(&mut best.rust_distance, begun.elapsed());
        let begun = Instant::now();
        run::side_rust_regions(&mut heightfield, &sizes);
        least(&mut best.rust_regions, begun.elapsed());

        if let Some(recast) = recast {
            let (distance, regions) = recast.times(path);
            least(&mut best.recast_distance, distance);
            least(&mut best.recast_regions, regions);
        }
    }
    best
}

/// The times in nanoseconds, one after the other; `-` for what is not there.
pub fn line(times: &Times) -> String {
    let told =
        |time: Option<Duration>| time.map_or("-".to_owned(), |time| time.as_nanos().to_string());
    [
        times.distance,
        times.rust_distance,
        times.recast_distance,
        times.kept,
        times.fresh,
        times.rust_regions,
        times.recast_regions,
    ]
    .map(told)
    .join(" ")
}
