//! Field files by seed, cut into pieces: the library's loader beside the model of document 02's words.

use crate::{
    library::{self, LOADER_LEN, Lists, LoadAnswer},
    small,
    tally::{Tally, only},
};
use oracle::{
    file::{self, Limits},
    levels::{KINDS, Size},
    pieces::{self, Loaded},
    rng::Rng,
};
use std::panic::{AssertUnwindSafe, catch_unwind};

/// A large file every so many seeds.
const LARGE_EVERY: u64 = 100;

/// Compares the files of so many seeds.
pub fn compare(first: u64, count: u64) -> Tally {
    let mut tally = Tally::default();
    for seed in first..first + count {
        if tally.is_enough() {
            break;
        }
        match catch_unwind(AssertUnwindSafe(|| compare_file(seed))) {
            Ok(Ok((kind, answer))) => tally.count(kind, &answer),
            Ok(Err(what)) => differs(seed, &what, &mut tally),
            Err(_) => differs(seed, "the comparison panics", &mut tally),
        }
        tally.fields += 1;
        tally.tell_progress("pieces", count);
    }
    tally
}

fn differs(seed: u64, what: &str, tally: &mut Tally) {
    tally.differs(&format!(
        "file of seed {seed} in pieces: {what}\nagain: {} --seed {seed}",
        only("pieces", 1)
    ));
}

/// The file of a seed, and the limits of its loader.
fn make(seed: u64, rng: &mut Rng) -> (&'static str, Vec<u8>, Limits) {
    if seed % LARGE_EVERY == 0 {
        let case = rng.pick(&KINDS).make(Size::Large, seed);
        let limits = Limits {
            cells: case.field.cells().saturating_sub(rng.pick(&[0, 0, 1])),
            spans: case.field.spans().saturating_sub(rng.pick(&[0, 0, 1])),
        };
        let mut bytes = file::write(&case);
        if rng.chance(50) {
            let place = rng.within(0..=bytes.len() - 1);
            bytes[place] ^= rng.pick(&[1, 2, 4, 255]);
        }
        return ("large", bytes, limits);
    }
    let (kind, mut bytes) = small::make(seed);
    if rng.chance(30) {
        bytes.truncate(rng.within(0..=bytes.len()));
    }
    if rng.chance(10) {
        bytes.extend([0, 4, 1].iter().take(rng.within(1..=3)));
    }
    let limits = if rng.chance(70) {
        Limits::PROGRAM
    } else {
        Limits {
            cells: rng.within(0..=1_100),
            spans: rng.within(0..=250),
        }
    };
    (kind, bytes, limits)
}

fn compare_file(seed: u64) -> Result<(&'static str, String), String> {
    let mut rng = Rng::new(seed ^ 0x5eed);
    let (kind, bytes, limits) = make(seed, &mut rng);
    let expected = pieces::load(&bytes, limits);
    let (whole, one) = run(&bytes, limits, &[bytes.len()], seed)?;
    told(&expected, &whole, &one, limits, seed)?;
    for most in [1, 2, 7, 64, 4_096] {
        let mut cuts = Vec::new();
        let mut left = bytes.len();
        while left > 0 {
            // empty pieces too
            let len = rng.within(0..=most).min(left);
            cuts.push(len);
            left -= len;
        }
        let (lists, loader) = run(&bytes, limits, &cuts, seed)?;
        if lists != whole || loader != one {
            return Err(format!(
                "pieces of at most {most} bytes leave something else"
            ));
        }
    }
    any_numbers(&bytes, &mut rng, seed)?;
    let answer = match expected.answer {
        Ok(_) => "loaded".to_owned(),
        Err(stop) => stop.refusal.to_string(),
    };
    Ok((kind, answer))
}

/// A loader of any numbers, that no loading leads to, takes a piece as its two halves; the lists have the lengths that its limits ask.
fn any_numbers(bytes: &[u8], rng: &mut Rng, seed: u64) -> Result<(), String> {
    let mut loader: Numbers = std::array::from_fn(|_| {
        let any = rng.number() as u32;
        rng.pick(&[0, 0, 1, 2, 3, 4, 9, 255, u32::MAX, any])
    });
    (loader[0], loader[1]) = (rng.within(0..=50) as u32, rng.within(0..=50) as u32);
    if rng.chance(80) {
        (loader[14], loader[16]) = (0, 0);
    }
    let mut lists = Lists::scribbled(loader[0] as usize, loader[1] as usize, seed);
    let (mut halves, mut other) = (loader, lists.clone());
    let (first, second) = bytes.split_at(rng.within(0..=bytes.len()));
    let whole = library::load_piece(bytes, &mut lists, &mut loader);
    library::load_piece(first, &mut other, &mut halves);
    let last = library::load_piece(second, &mut other, &mut halves);
    if (whole, loader, lists) != (last, halves, other) {
        return Err("a loader of any numbers takes two halves otherwise".to_owned());
    }
    Ok(())
}

/// The loader's numbers.
type Numbers = [u32; LOADER_LEN];

/// Loads the file in pieces of these lengths and declares its end.
fn run(
    bytes: &[u8],
    limits: Limits,
    cuts: &[usize],
    seed: u64,
) -> Result<(Lists, Numbers), String> {
    let mut lists = Lists::scribbled(limits.cells, limits.spans, seed);
    let mut loader = [0; LOADER_LEN];
    library::load_begin(limits.cells as u32, limits.spans as u32, &mut loader);
    let (mut at, mut answer) = (0, LoadAnswer::default());
    for &len in cuts {
        let before = (loader, answer);
        answer = library::load_piece(&bytes[at..at + len], &mut lists, &mut loader);
        if before.1.refusal != 0 && (loader, answer) != before {
            return Err(format!(
                "a piece after a refusal changes something at byte {at}"
            ));
        }
        at += len;
    }
    short_lists(&mut loader, &mut lists, answer)?;
    let last = library::load_end(&mut loader);
    if answer.refusal != 0 && last != answer {
        return Err("the end after a refusal gives something else".to_owned());
    }
    let ended = (lists.clone(), loader);
    for piece in [&b""[..], b"\x04", b"\x01\x02\x03"] {
        if library::load_piece(piece, &mut lists, &mut loader) != last {
            return Err("a piece after the end gives something else".to_owned());
        }
    }
    if library::load_end(&mut loader) != last || (lists, loader) != ended {
        return Err("a call after the end changes something".to_owned());
    }
    Ok(ended)
}

/// A list that is too short, and a loader of another length, are refused 3 and nothing changes; after a refusal the answer stays.
fn short_lists(loader: &mut Numbers, lists: &mut Lists, answer: LoadAnswer) -> Result<(), String> {
    let before = (lists.clone(), *loader);
    for short in 0..4 {
        let mut fewer = lists.clone();
        let lacks = match short {
            0 => fewer.index.pop().is_some(),
            1 => fewer.count.pop().is_some(),
            2 => fewer.area.pop().is_some(),
            _ => fewer.con.pop().is_some(),
        };
        if !lacks {
            continue;
        }
        let kept = fewer.clone();
        let expected = if answer.refusal == 0 {
            LoadAnswer {
                refusal: 3,
                position: 0,
            }
        } else {
            answer
        };
        if library::load_piece(b"\x04\x04\x04", &mut fewer, loader) != expected || fewer != kept {
            return Err(format!("short list {short}"));
        }
    }
    let wrong = LoadAnswer {
        refusal: 3,
        position: 0,
    };
    for len in [0, LOADER_LEN - 1] {
        if library::load_piece(b"\x04", lists, &mut loader[..len]) != wrong
            || library::load_end(&mut loader[..len]) != wrong
            || library::load_begin(1, 1, &mut loader[..len]) != wrong
        {
            return Err(format!("a loader of {len} numbers is not refused 3"));
        }
    }
    if (lists.clone(), *loader) != before {
        return Err("a call refused 3 changes something".to_owned());
    }
    Ok(())
}

/// The refusal and its position, or the numbers of the field; and every list.
fn told(
    expected: &Loaded,
    lists: &Lists,
    loader: &Numbers,
    limits: Limits,
    seed: u64,
) -> Result<(), String> {
    let (refusal, position, ended) = (loader[14], loader[15], loader[16]);
    let field = &expected.field;
    match &expected.answer {
        Err(stop) => {
            if (refusal, position) != (stop.refusal as u32, stop.position as u32) {
                return Err(format!(
                    "refused {refusal} at {position}, the model {stop:?}"
                ));
            }
        }
        Ok(settings) => {
            let sizes = [
                settings.border_size,
                settings.least_area,
                settings.merge_area,
            ];
            let numbers = [field.w, field.h].into_iter().chain(sizes).map(u32::from);
            let spans = field.spans() as u32;
            if (refusal, ended) != (0, 1)
                || !loader[6..11].iter().copied().eq(numbers)
                || loader[12] != spans
            {
                return Err(format!("the loader {loader:?}, the model {settings:?}"));
            }
        }
    }
    let mut left = Lists::scribbled(limits.cells, limits.spans, seed);
    left.index[..field.index.len()].copy_from_slice(&field.index);
    left.count[..field.count.len()].copy_from_slice(&field.count);
    left.area[..field.area.len()].copy_from_slice(&field.area);
    left.con[..field.con.len()].copy_from_slice(&field.con);
    if *lists != left {
        return Err("the lists differ from the model's".to_owned());
    }
    Ok(())
}
