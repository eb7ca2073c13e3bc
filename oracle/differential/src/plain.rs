//! Plain rooms, by seed: the library beside the model of document 02's words.

use crate::{
    calls::Call,
    faults,
    lent::Lent,
    library::{self, RoomAnswer},
    tally::{Tally, only},
};
use oracle::{
    field::{Field, Settings},
    levels::{KINDS, Size, at_limits, edges},
    plain,
    rng::Rng,
};
use std::panic::{AssertUnwindSafe, catch_unwind};

/// A large field every so many seeds.
const LARGE_EVERY: u64 = 200;

/// Numbers of spans that are all apart: as many rooms as there can be, and one more.
const APART: [usize; 2] = [32_767, 32_768];

/// The faults that refusals 1 to 7 are given for, by their numbers in `faults`.
const FAULTS: [usize; 14] = [0, 1, 2, 3, 4, 5, 6, 10, 11, 12, 15, 16, 17, 19];

/// Compares the fields of so many seeds.
pub fn compare(first: u64, count: u64) -> Tally {
    let mut tally = Tally::default();
    for seed in first..first + count {
        if tally.is_enough() {
            break;
        }
        let compared = catch_unwind(AssertUnwindSafe(|| compare_field(seed, &mut tally)));
        if compared.is_err() {
            differs(seed, "the comparison panics", &mut tally);
        }
        tally.fields += 1;
        tally.tell_progress("rooms", count);
    }
    tally
}

fn differs(seed: u64, what: &str, tally: &mut Tally) {
    tally.differs(&format!(
        "rooms of seed {seed}: {what}\nagain: {} --seed {seed}",
        only("rooms", 1)
    ));
}

fn compare_field(seed: u64, tally: &mut Tally) {
    let mut rng = Rng::new(seed ^ 0x800A);
    let (kind, mut field) = make(seed, &mut rng);
    if kind != "apart" && rng.chance(50) {
        // areas by hand: walls, and rooms that meet
        for area in &mut field.area {
            *area = rng.pick(&[0, 1, 1, 1, 1, 2]);
        }
    }
    let mut compared = |name: &str, result: Result<String, String>| match result {
        Ok(answer) => tally.count(kind, &answer),
        Err(what) => differs(seed, &format!("{kind}, {name}: {what}"), tally),
    };
    let call = Call::fitting(field, Vec::new(), 0, Settings::default());
    for border in [0, rng.pick(&[1, 2, 5, 300, u16::MAX])] {
        compared(&format!("border {border}"), compare_call(&call, border));
    }
    let mut longer = call.clone();
    longer.workspace_len += rng.within(1..=500);
    compared("a longer workspace", compare_call(&longer, 1));
    for _ in 0..2 {
        let fault = rng.pick(&FAULTS);
        let mut wrong = call.clone();
        faults::put(&mut wrong, fault, &mut rng);
        compared(&format!("fault {fault}"), compare_call(&wrong, 1));
    }
}

/// The field of a seed, with the name of its kind.
fn make(seed: u64, rng: &mut Rng) -> (&'static str, Field) {
    if seed % LARGE_EVERY != 0 {
        return ("small", rng.pick(&KINDS).make(Size::Small, seed).field);
    }
    match rng.within(0..=4) {
        0 => ("at limits", at_limits::largest_open(rng)),
        1 => ("at limits", at_limits::whole_grid(rng)),
        2 => ("at limits", at_limits::highest(rng)),
        3 => ("apart", edges::apart(rng.pick(&APART))),
        _ => ("large", rng.pick(&KINDS).make(Size::Large, seed).field),
    }
}

fn compare_call(call: &Call, border: u16) -> Result<String, String> {
    let (mut workspace, mut ids) = (Lent::new(call.workspace_len), Lent::new(call.ids_len));
    let lent = call.field.clone();
    let answer = library::rooms(&lent, border, workspace.lend(), ids.lend());
    if lent != call.field {
        return Err("a list that is lent for reading was changed".to_owned());
    }
    let expected = plain::build(&call.field, border, call.ids_len, call.workspace_len);
    let numbers = RoomAnswer {
        refusal: expected
            .as_ref()
            .map_or_else(|refusal| *refusal as u16, |_| 0),
        max_region: expected.as_ref().map_or(0, |rooms| rooms.max_region),
    };
    if answer != numbers {
        return Err(format!("{answer:?}, not {numbers:?}"));
    }
    match expected {
        Ok(rooms) => {
            ids.holds("ids", &rooms.ids)?;
            workspace.holds_zeros("workspace")?;
            Ok("rooms".to_owned())
        }
        Err(refusal) => {
            ids.is_kept("ids")?;
            if numbers.refusal == 12 {
                workspace.holds_zeros("workspace")?;
            } else {
                workspace.is_kept("workspace")?;
            }
            Ok(refusal.to_string())
        }
    }
}
