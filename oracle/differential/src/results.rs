//! Stored results by seed, right, damaged and at the limits: the library's conversions beside the model of document 02's words.

use crate::{
    library,
    tally::{Tally, only},
};
use oracle::{
    rng::Rng,
    stored::{self, MOST, Run},
};
use std::panic::{AssertUnwindSafe, catch_unwind};

/// So many bytes on either side of a list are not lent.
const SIDE: usize = 16;

/// What a result or a file is.
const KINDS: [&str; 9] = [
    "rooms",
    "stretches",
    "wrong-number",
    "noise-ids",
    "long-runs",
    "split-runs",
    "damaged-old",
    "damaged-new",
    "noise-bytes",
];

/// Compares the results of so many seeds.
pub fn compare(first: u64, count: u64) -> Tally {
    let mut tally = Tally::default();
    for seed in first..first + count {
        if tally.is_enough() {
            break;
        }
        let compared = catch_unwind(AssertUnwindSafe(|| compare_result(seed, &mut tally)));
        if compared.is_err() {
            differs(seed, "the comparison panics", &mut tally);
        }
        tally.fields += 1;
        tally.tell_progress("results", count);
    }
    tally
}

fn differs(seed: u64, what: &str, tally: &mut Tally) {
    tally.differs(&format!(
        "stored result of seed {seed}: {what}\nagain: {} --seed {seed}",
        only("results", 1)
    ));
}

fn compare_result(seed: u64, tally: &mut Tally) {
    let mut rng = Rng::new(!seed);
    let kind = KINDS[(seed % KINDS.len() as u64) as usize];
    let (old, new) = make(kind, &mut rng);
    let mut compared = |name: &str, result: Result<String, String>| match result {
        Ok(answer) => tally.count(kind, &answer),
        Err(what) => differs(seed, &format!("{kind}, {name}: {what}"), tally),
    };
    let spans = (old.len() / 3) as u32;
    for span in [
        0,
        1,
        spans / 2,
        spans.saturating_sub(1),
        spans,
        u32::MAX,
        rng.number() as u32,
    ] {
        for file in [&old, &new] {
            compared(&format!("span {span}"), compare_ids(file, span));
        }
    }
    for file in [&old, &new] {
        let more = rng.within(1..=40);
        for pack in [true, false] {
            let model = if pack { stored::pack } else { stored::unpack };
            let exact = model(file, usize::MAX).map_or(file.len(), |output| output.len());
            for room in [exact, exact.saturating_sub(1), exact + more, 0] {
                let name = if pack { "pack" } else { "unpack" };
                compared(
                    &format!("{name} into {room} bytes"),
                    compare_call(file, pack, room),
                );
            }
        }
    }
}

/// A file of each form, or what was made of it.
fn make(kind: &str, rng: &mut Rng) -> (Vec<u8>, Vec<u8>) {
    if kind == "noise-bytes" {
        let len = rng.within(0..=40);
        let bytes: Vec<u8> = (0..len).map(|_| rng.pick(&[0, 1, 4, 5, 6, 7])).collect();
        return (bytes.clone(), bytes);
    }
    let ids = ids(kind, rng);
    let mut runs = stored::runs_of(&ids);
    if kind == "split-runs" && !runs.is_empty() {
        split(&mut runs, rng);
    }
    let (mut old, mut new) = (stored::old_form(&ids), stored::new_form(&runs));
    if kind == "wrong-number" && new.len() > 325 {
        let place = rng.pick(&[320, 321, 322, 323, 324]);
        new[place] ^= 1 << rng.within(0..=7);
    }
    if kind == "damaged-old" || kind == "damaged-new" {
        damage(&mut old, rng);
        damage(&mut new, rng);
    }
    (old, new)
}

/// Ids of a result.
fn ids(kind: &str, rng: &mut Rng) -> Vec<u16> {
    let mut ids = Vec::new();
    let spans = match kind {
        "long-runs" => 3,
        "stretches" | "wrong-number" => rng.pick(&[63, 64, 65, 127, 128, 129, 200, 640]),
        _ => rng.within(0..=60),
    };
    for _ in 0..spans {
        let id = match kind {
            "noise-ids" | "stretches" | "wrong-number" => rng.within(0..=65_535) as u16,
            _ => rng.pick(&[0, 1, 2, 255, 256, 0x8001, 65_535]),
        };
        let length = match kind {
            "long-runs" => usize::from(MOST) * rng.within(1..=2) + rng.within(0..=2) - 1,
            "noise-ids" => 1,
            _ => rng.pick(&[1, 1, 2, 5, 300]),
        };
        ids.resize(ids.len() + length, id);
    }
    ids
}

/// A run in two.
fn split(runs: &mut Vec<Run>, rng: &mut Rng) {
    let at = rng.within(0..=runs.len() - 1);
    let Run { id, length } = runs[at];
    if length > 1 {
        let first = rng.within(1..=usize::from(length) - 1) as u16;
        runs[at].length = first;
        runs.insert(
            at + 1,
            Run {
                id,
                length: length - first,
            },
        );
    }
}

/// One byte or the length changed.
fn damage(file: &mut Vec<u8>, rng: &mut Rng) {
    let place = rng.within(0..=file.len() - 1);
    match rng.within(0..=4) {
        0 => file[place] = rng.pick(&[0, 1, 4, 5, 6, 7, 255]),
        1 => file.truncate(place),
        2 => file.push(rng.pick(&[0, 4, 5, 6])),
        3 => file[place] ^= 1 << rng.within(0..=7),
        _ => {
            file.remove(place);
        }
    }
}

/// One call with a list of so many bytes. Gives the answer's sort, or what differs.
fn compare_call(file: &[u8], pack: bool, room: usize) -> Result<String, String> {
    let held: Vec<u8> = (0..room + 2 * SIDE)
        .map(|place| (place * 37 + 11) as u8)
        .collect();
    let mut out = held.clone();
    let lent = file.to_vec();
    let (found, expected) = {
        let part = &mut out[SIDE..SIDE + room];
        if pack {
            (library::pack(&lent, part), stored::pack(file, room))
        } else {
            (library::unpack(&lent, part), stored::unpack(file, room))
        }
    };
    if lent != file {
        return Err("the file was changed".to_owned());
    }
    let mut wanted = held;
    let (numbers, sort) = match expected {
        Ok(output) => {
            wanted[SIDE..SIDE + output.len()].copy_from_slice(&output);
            back(file, pack, &output)?;
            ([0, output.len() as u64], "converted".to_owned())
        }
        Err(refusal) => ([refusal as u64, 0], refusal.to_string()),
    };
    if found != (numbers[0] as u32, numbers) {
        return Err(format!("{found:?}, not {numbers:?}"));
    }
    match (0..wanted.len()).find(|&place| out[place] != wanted[place]) {
        None => Ok(sort),
        Some(place) => {
            let (found, wanted) = (out[place], wanted[place]);
            Err(format!(
                "out has {found} at {}, not {wanted}",
                place as i64 - SIDE as i64
            ))
        }
    }
}

/// "each way returns the very bytes it began with", and a list of another length for the numbers changes nothing.
fn back(file: &[u8], pack: bool, output: &[u8]) -> Result<(), String> {
    let mut again = vec![0; file.len()];
    let (refusal, numbers) = if pack {
        library::unpack(output, &mut again)
    } else {
        library::pack(output, &mut again)
    };
    if (refusal, numbers) != (0, [0, file.len() as u64]) || again != file {
        return Err("it does not come back".to_owned());
    }
    let refused = library::pack_with(file, &mut again, &mut [9; 3]);
    if (refused, &again[..]) != (3, file) {
        return Err("a list of three for the numbers is not refused 3".to_owned());
    }
    Ok(())
}

/// Both readers of one span's id: the full one beside the model, and the other equal to it where the file is accepted.
fn compare_ids(file: &[u8], span: u32) -> Result<String, String> {
    let whole = library::id_at_whole(file, span);
    let (id, stretch) = stored::id_at_whole(file, span);
    let (numbers, sort) = match id {
        Ok(id) => ([0, u32::from(id), stretch], "id".to_owned()),
        Err(refusal) => ([refusal as u32, 0, stretch], refusal.to_string()),
    };
    if whole != (numbers[0], numbers) {
        return Err(format!("the full reader {whole:?}, not {numbers:?}"));
    }
    let quick = library::id_at(file, span);
    if matches!(numbers[0], 0 | 26) && quick != whole {
        return Err(format!("by kind 7 records {quick:?}, not {whole:?}"));
    }
    Ok(sort)
}
