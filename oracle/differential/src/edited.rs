//! Fields edited by hand or by a script, by seed: the library's mending beside the model of document 02's words.

use crate::{
    calls::Call,
    faults,
    library::{self, MendAnswer},
    tally::{Tally, only},
};
use oracle::{
    damage::DAMAGES,
    field::{Case, DIRECTIONS, Field, NONE, Settings},
    file::{self, Limits},
    levels::{KINDS, Size, at_limits},
    mending::{self, Mended},
    refusals::{self, Refusal},
    rng::Rng,
};
use std::panic::{AssertUnwindSafe, catch_unwind};

/// So many elements on either side of a list are not lent.
const SIDE: usize = 32;

/// The faults that refusals 1 to 4 are given for, by their numbers in `faults`.
const FAULTS: [usize; 9] = [0, 1, 2, 3, 4, 5, 6, 15, 16];

/// What was done to a sound field.
const EDITS: [&str; 7] = [
    "sound",
    "spans-deleted",
    "cell-emptied",
    "bytes-edited",
    "one-side-cut",
    "noise",
    "damaged-file",
];

/// A large field every so many seeds.
const LARGE_EVERY: u64 = 50;

/// Compares the fields of so many seeds.
pub fn compare(first: u64, count: u64) -> Tally {
    let mut tally = Tally::default();
    for seed in first..first + count {
        if tally.is_enough() {
            break;
        }
        let compared = catch_unwind(AssertUnwindSafe(|| compare_field(seed, &mut tally)));
        if compared.is_err() {
            differs(seed, "the comparison panics", &mut tally);
        }
        tally.fields += 1;
        tally.tell_progress("edited", count);
    }
    tally
}

fn differs(seed: u64, what: &str, tally: &mut Tally) {
    tally.differs(&format!(
        "edited field of seed {seed}: {what}\nagain: {} --seed {seed}",
        only("edited", 1)
    ));
}

fn compare_field(seed: u64, tally: &mut Tally) {
    let mut rng = Rng::new(!seed);
    let (kind, field) = make(seed, &mut rng);
    let mut compared = |name: &str, result: Result<String, String>| match result {
        Ok(answer) => tally.count(kind, &answer),
        Err(what) => differs(seed, &format!("{kind}, {name}: {what}"), tally),
    };
    let changes = mending::mend(&field, usize::MAX).map_or(0, |mended| mended.changes.len());
    let more = rng.within(3..=40);
    // exact room, one and two numbers left over, one place too few, none, and more
    let exact = 3 * changes;
    let short = [exact.saturating_sub(1), exact.saturating_sub(3), 0];
    for len in [exact, exact + 1, exact + 2, exact + more]
        .into_iter()
        .chain(short)
    {
        compared(
            &format!("room for {len} numbers"),
            compare_mending(&field, len),
        );
    }
    let fault = rng.pick(&FAULTS);
    let mut call = Call::fitting(field, Vec::new(), 0, Settings::default());
    faults::put(&mut call, fault, &mut rng);
    compared(
        &format!("fault {fault}"),
        compare_mending(&call.field, exact),
    );
}

/// The field of a seed, with the name of what was done to it.
fn make(seed: u64, rng: &mut Rng) -> (&'static str, Field) {
    let edit = EDITS[(seed % EDITS.len() as u64) as usize];
    if edit == "damaged-file" {
        // those that can be read: a side too long, a cell too high, connections astray or unanswered
        let bytes = DAMAGES[rng.within(0..=4)].make(seed);
        let case = file::read(&bytes, Limits::FORMAT).expect("a file that can be read");
        return (edit, case.field);
    }
    let mut field = if seed % LARGE_EVERY == 0 {
        match rng.within(0..=3) {
            0 => at_limits::largest_open(rng),
            1 => at_limits::whole_grid(rng),
            2 => at_limits::highest(rng),
            _ => rng.pick(&KINDS).make(Size::Large, seed).field,
        }
    } else {
        rng.pick(&KINDS).make(Size::Small, seed).field
    };
    let n = field.spans();
    match edit {
        "spans-deleted" => {
            let few = rng.pick(&[1, 2, 5, 20]);
            field = without(&field, |_, rng| rng.within(0..=n) < few, rng);
        }
        "cell-emptied" => {
            let cell = rng.within(0..=field.cells());
            field = without(&field, |other, _| other == cell, rng);
        }
        "bytes-edited" => {
            for _ in 0..rng.within(1..=8).min(4 * n) {
                let place = rng.within(0..=4 * n - 1);
                field.con[place] = rng.pick(&[0, 1, 2, 3, 62, 63, 254, NONE]);
            }
        }
        "one-side-cut" => {
            let d = rng.pick(&DIRECTIONS);
            for span in 0..n {
                if rng.chance(30) {
                    field.con[4 * span + d] = NONE;
                }
            }
        }
        "noise" => {
            for con in &mut field.con {
                *con = rng.pick(&[0, 0, 0, 1, 2, 254, NONE]);
            }
        }
        _ => {}
    }
    (edit, field)
}

/// The edited field of a seed as a file, if it is small enough for the program.
pub fn file(seed: u64) -> Option<(&'static str, Vec<u8>)> {
    let (edit, field) = make(seed, &mut Rng::new(!seed));
    let Limits { cells, spans } = Limits::PROGRAM;
    let settings = Settings::default();
    (field.cells() <= cells && field.spans() <= spans)
        .then(|| (edit, file::write(&Case { field, settings })))
}

/// The field as a script leaves it that deletes spans and does not look at connections.
fn without(field: &Field, mut goes: impl FnMut(usize, &mut Rng) -> bool, rng: &mut Rng) -> Field {
    let mut left = Field {
        w: field.w,
        h: field.h,
        ..Field::default()
    };
    for cell in 0..field.cells() {
        let before = left.area.len();
        for span in field.spans_in(cell) {
            if !goes(cell, rng) {
                left.area.push(field.area[span]);
                left.con.extend(&field.con[4 * span..4 * span + 4]);
            }
        }
        left.index.push(before as u32);
        left.count.push((left.area.len() - before) as u8);
    }
    left
}

/// Calls the mending with a list of so many numbers. Gives the answer's sort, or what differs.
fn compare_mending(field: &Field, len: usize) -> Result<String, String> {
    let mut con = Beside::new(field.con.clone());
    let held: Vec<u16> = (0..len).map(|place| (place * 40_503 + 7) as u16).collect();
    let mut changes = Beside::new(held.clone());
    let lent = field.clone();
    let answer = library::mend(&lent, con.lend(), changes.lend());
    if lent != *field {
        return Err("a list that is lent for reading was changed".to_owned());
    }
    match mending::mend(field, len / 3) {
        Ok(mended) => {
            same(answer, 0, mended.changes.len())?;
            con.holds("con", &mended.con)?;
            let mut listed = mended.numbers();
            listed.extend(&held[listed.len()..]);
            changes.holds("changes", &listed)?;
            leaves_soundness(field, &mended)?;
            Ok(if mended.changes.is_empty() {
                "unchanged".to_owned()
            } else {
                "mended".to_owned()
            })
        }
        Err(refusal) => {
            same(answer, refusal as u32, 0)?;
            con.holds("con", &field.con)?;
            changes.holds("changes", &held)?;
            Ok(refusal.to_string())
        }
    }
}

/// After mending, the checker passes, and mending again changes nothing.
fn leaves_soundness(field: &Field, mended: &Mended) -> Result<(), String> {
    let left = Field {
        con: mended.con.clone(),
        ..field.clone()
    };
    let n = left.spans();
    if let Err(refusal) = refusals::distance_entry(&left, n, n) {
        return Err(format!("the model's mended field is {refusal}"));
    }
    let checked = library::distances(&left, &mut vec![0; n], &mut vec![0; n]);
    if checked.refusal != 0 {
        return Err(format!("the mended field is refused {}", checked.refusal));
    }
    let mut again = Beside::new(left.con.clone());
    same(library::mend(&left, again.lend(), &mut []), 0, 0)?;
    again.holds("con, mended twice,", &left.con)?;
    match mending::mend(&left, 0) {
        Ok(model) if model.con == left.con => Ok(()),
        Ok(_) | Err(Refusal::NoRoom) => Err("the model's second mending changes".to_owned()),
        Err(refusal) => Err(format!("the model's second mending is {refusal}")),
    }
}

fn same(found: MendAnswer, refusal: u32, count: usize) -> Result<(), String> {
    let expected = MendAnswer {
        refusal,
        count: count as u32,
    };
    if found == expected {
        Ok(())
    } else {
        Err(format!("{found:?}, not {expected:?}"))
    }
}

/// A list among elements that no call may touch.
struct Beside<T> {
    all: Vec<T>,
}

impl<T: Copy + PartialEq + From<u8> + std::fmt::Display> Beside<T> {
    fn new(list: Vec<T>) -> Self {
        let side = (0..SIDE).map(|place| T::from(7 * place as u8 + 9));
        let all = side.clone().chain(list).chain(side).collect();
        Self { all }
    }

    fn lend(&mut self) -> &mut [T] {
        let end = self.all.len() - SIDE;
        &mut self.all[SIDE..end]
    }

    fn holds(&self, name: &str, expected: &[T]) -> Result<(), String> {
        let wanted = Self::new(expected.to_vec()).all;
        match (0..wanted.len()).find(|&place| self.all[place] != wanted[place]) {
            None => Ok(()),
            Some(place) => {
                let (found, wanted) = (self.all[place], wanted[place]);
                let place = place as i64 - SIDE as i64;
                Err(format!("{name} has {found} at {place}, not {wanted}"))
            }
        }
    }
}
