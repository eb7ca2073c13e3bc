//! Doors opened and closed, by seed: the library's refresh beside the model of document 02's words.

use crate::{
    library,
    tally::{Tally, only},
};
use oracle::{
    doors::{self, Rect, Stages},
    field::Field,
    levels::{KINDS, Size},
    refusals::Refusal,
    rng::Rng,
};
use std::panic::{AssertUnwindSafe, catch_unwind};

/// So many edits after each other of one field.
const EDITS: usize = 4;

/// A large field every so many seeds.
const LARGE_EVERY: u64 = 200;

/// Compares the fields of so many seeds.
pub fn compare(first: u64, count: u64) -> Tally {
    let mut tally = Tally::default();
    for seed in first..first + count {
        if tally.is_enough() {
            break;
        }
        let compared = catch_unwind(AssertUnwindSafe(|| compare_field(seed, &mut tally)));
        if compared.is_err() {
            differs(seed, "the comparison panics", &mut tally);
        }
        tally.fields += 1;
        tally.tell_progress("doors", count);
    }
    tally
}

fn differs(seed: u64, what: &str, tally: &mut Tally) {
    tally.differs(&format!(
        "door of seed {seed}: {what}\nagain: {} --seed {seed}",
        only("doors", 1)
    ));
}

fn compare_field(seed: u64, tally: &mut Tally) {
    let mut rng = Rng::new(seed ^ 0xD00E);
    let size = if seed % LARGE_EVERY == 0 {
        Size::Large
    } else {
        Size::Small
    };
    let mut field = rng.pick(&KINDS).make(size, seed).field;
    let mut compared = |kind: &'static str, result: Result<String, String>| match result {
        Ok(answer) => tally.count(kind, &answer),
        Err(what) => differs(seed, &format!("{kind}: {what}"), tally),
    };
    let n = field.spans();
    let mut lists = held(n);
    compared("built", compare_build(&field, &mut lists));
    for _ in 0..EDITS {
        let rect = rectangle(&field, &mut rng);
        edit(&mut field, rect, &mut rng);
        compared("door", compare_refresh(&field, rect, &mut lists, true));
    }
    // lists that are no field's, to 510 and above
    for most in [2, 20, 510, 511] {
        let mut other = held(n);
        for list in [&mut other.pass1, &mut other.raw, &mut other.blurred] {
            list.iter_mut()
                .for_each(|v| *v = rng.within(0..=most) as u16);
        }
        let rect = rectangle(&field, &mut rng);
        compared(
            "other lists",
            compare_refresh(&field, rect, &mut other, false),
        );
    }
    // rectangles that are empty or not in the field
    let (w, h) = (field.w, field.h);
    for rect in [
        Rect {
            x0: 1,
            z0: 0,
            x1: 0,
            z1: 0,
        },
        Rect {
            x0: 0,
            z0: 1,
            x1: 0,
            z1: 0,
        },
        Rect {
            x0: 0,
            z0: 0,
            x1: w,
            z1: 0,
        },
        Rect {
            x0: 0,
            z0: 0,
            x1: 0,
            z1: h,
        },
        Rect {
            x0: 0,
            z0: 0,
            x1: u16::MAX,
            z1: u16::MAX,
        },
    ] {
        compared(
            "wrong rectangle",
            compare_refresh(&field, rect, &mut lists.clone(), false),
        );
    }
    // lists one too long, a connection astray
    let rect = rectangle(&field, &mut rng);
    for which in 0..3 {
        let mut long = lists.clone();
        [&mut long.pass1, &mut long.raw, &mut long.blurred][which].push(0);
        compared(
            "wrong length",
            compare_refresh(&field, rect, &mut long, false),
        );
    }
    if n > 0 {
        field.con[rng.within(0..=4 * n - 1)] = 62;
        compared("damaged", compare_refresh(&field, rect, &mut lists, false));
    }
}

/// What a list held before.
fn held(n: usize) -> Stages {
    let list: Vec<u16> = (0..n).map(|place| (place * 7 % 500) as u16).collect();
    Stages {
        pass1: list.clone(),
        raw: list.clone(),
        blurred: list,
    }
}

fn rectangle(field: &Field, rng: &mut Rng) -> Rect {
    let mut ends = |side: u16| {
        let last = usize::from(side.max(1)) - 1;
        let from = rng.within(0..=last);
        let to = (from + rng.within(0..=2)).min(last);
        (from as u16, to as u16)
    };
    let ((x0, x1), (z0, z1)) = (ends(field.w), ends(field.h));
    Rect { x0, z0, x1, z1 }
}

/// Area codes in the rectangle change.
fn edit(field: &mut Field, rect: Rect, rng: &mut Rng) {
    if rect.x1 >= field.w || rect.z1 >= field.h {
        return;
    }
    for z in rect.z0..=rect.z1 {
        for x in rect.x0..=rect.x1 {
            for span in field.spans_in(field.cell_at(x, z)) {
                field.area[span] = rng.pick(&[0, 1, 1, 2]);
            }
        }
    }
}

fn compare_build(field: &Field, lists: &mut Stages) -> Result<String, String> {
    let before = lists.clone();
    let found = library::stages(field, lists);
    let lens = [before.pass1.len(), before.raw.len(), before.blurred.len()];
    match doors::build(field, lens) {
        Ok((stages, greatest)) => {
            same(
                "the answer",
                (found.refusal, found.max_distance),
                (0, greatest),
            )?;
            same("the lists", &*lists, &stages)?;
            let n = field.spans();
            let (mut raw, mut blurred) = (vec![0; n], vec![0; n]);
            library::distances(field, &mut raw, &mut blurred);
            same(
                "the distance entry's lists",
                (raw, blurred),
                (stages.raw, stages.blurred),
            )?;
            Ok("built".to_owned())
        }
        Err(refusal) => {
            same(
                "the answer",
                (found.refusal, found.max_distance),
                (refusal as u16, 0),
            )?;
            same("the lists", &*lists, &before)?;
            Ok(refusal.to_string())
        }
    }
}

/// Whether a refresh does what the model does; of a field's own lists, also what a build does.
fn compare_refresh(
    field: &Field,
    rect: Rect,
    lists: &mut Stages,
    own: bool,
) -> Result<String, String> {
    let before = lists.clone();
    let mut answer = [9; 8];
    let refusal = library::refresh(field, rect, lists, &mut answer);
    same("the refusal", refusal, answer[0])?;
    match doors::refresh(field, rect, &before) {
        Ok((stages, report)) => {
            let [a, b, c, d, e, f] = report.rows;
            same(
                "the answer",
                answer,
                [0, report.max_distance, a, b, c, d, e, f],
            )?;
            same("the lists", &*lists, &stages)?;
            if own {
                let n = field.spans();
                let (built, greatest) = doors::build(field, [n; 3]).map_err(|r| r.to_string())?;
                same("the build's lists", &stages, &built)?;
                same("the build's greatest", report.max_distance, greatest)?;
            }
            Ok("refreshed".to_owned())
        }
        Err(refusal) => {
            same("the answer", answer, [refusal as u16, 0, 0, 0, 0, 0, 0, 0])?;
            same("the lists", &*lists, &before)?;
            if refusal == Refusal::WrongLength {
                return Ok(refusal.to_string());
            }
            let mut short = [9; 7];
            library::refresh(field, rect, lists, &mut short);
            same("a list of seven", short, [9; 7])?;
            Ok(refusal.to_string())
        }
    }
}

fn same<T: PartialEq + std::fmt::Debug>(what: &str, found: T, expected: T) -> Result<(), String> {
    if found == expected {
        return Ok(());
    }
    let text = format!("{what}: {found:?}, not {expected:?}");
    Err(text.chars().take(2_000).collect())
}
