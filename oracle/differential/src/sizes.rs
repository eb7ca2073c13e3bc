//! Floor sizes, by seed: the library beside the model of document 02's words.

use crate::{
    calls::Call,
    faults, library,
    tally::{Tally, only},
};
use oracle::{
    field::{Field, Settings},
    levels::{KINDS, Size, at_limits},
    plain, refusals,
    rng::Rng,
    sizes,
};
use std::panic::{AssertUnwindSafe, catch_unwind};

/// A large field every so many seeds.
const LARGE_EVERY: u64 = 300;

/// The faults that refusals 1 to 6 are given for, by their numbers in `faults`.
const FAULTS: [usize; 11] = [0, 1, 2, 3, 4, 5, 6, 15, 16, 17, 19];

/// Compares the fields of so many seeds.
pub fn compare(first: u64, count: u64) -> Tally {
    let mut tally = Tally::default();
    for seed in first..first + count {
        if tally.is_enough() {
            break;
        }
        let compared = catch_unwind(AssertUnwindSafe(|| compare_field(seed, &mut tally)));
        if compared.is_err() {
            differs(seed, "the comparison panics", &mut tally);
        }
        tally.fields += 1;
        tally.tell_progress("sizes", count);
    }
    tally
}

fn differs(seed: u64, what: &str, tally: &mut Tally) {
    tally.differs(&format!(
        "sizes of seed {seed}: {what}\nagain: {} --seed {seed}",
        only("sizes", 1)
    ));
}

fn compare_field(seed: u64, tally: &mut Tally) {
    let mut rng = Rng::new(seed ^ 0x512E);
    let (kind, field) = if seed % LARGE_EVERY == 0 {
        ("large", at_limits::highest(&mut rng))
    } else {
        ("small", rng.pick(&KINDS).make(Size::Small, seed).field)
    };
    let mut compared = |name: &str, result: Result<String, String>| match result {
        Ok(answer) => tally.count(kind, &answer),
        Err(what) => differs(seed, &format!("{kind}, {name}: {what}"), tally),
    };
    let n = field.spans();
    let own = plain::build(&field, 1, n, refusals::workspace_needed(n)).expect("a sound field");
    let any: Vec<u16> = (0..n)
        .map(|_| rng.pick(&[0, 1, 2, 3, 3, 0x8001, 0x8004, u16::MAX]))
        .collect();
    for (ids, most) in [
        (&own.ids, own.max_region),
        (&any, 3),
        (&any, 2),
        (&any, u16::MAX),
    ] {
        let last = usize::from(most.min(40)) + 1;
        let k = rng.pick(&[1, 7, 20, 64, 255, 256]);
        for id in [0, 1, rng.within(0..=last) as u16, most, 0x8001, u16::MAX] {
            compared("rooms", compare_call(&field, ids, [most, k, id]));
        }
        let k = rng.pick(&[0, 257, u16::MAX]);
        compared("wrong scale", compare_call(&field, ids, [most, k, 1]));
    }
    let long = [&any[..], &[0]].concat();
    compared("an id more", compare_call(&field, &long, [3, 64, 1]));
    compared("other places", other_places(&field, &own.ids));
    let mut wrong = Call::fitting(field, Vec::new(), 0, Settings::default());
    let fault = rng.pick(&FAULTS);
    faults::put(&mut wrong, fault, &mut rng);
    compared(
        &format!("fault {fault}"),
        compare_call(&wrong.field, &any, [3, rng.pick(&[0, 64]), 1]),
    );
}

fn compare_call(field: &Field, ids: &[u16], asked: [u16; 3]) -> Result<String, String> {
    let [most, k, id] = asked;
    let (mut sizes, mut numbers) = ([7.5; 5], [9; 3]);
    let refusal = library::measure(field, ids, asked, &mut sizes, &mut numbers);
    let (room, number) = match sizes::measure(field, ids, most, k, id) {
        Ok(room) => (room, 0),
        Err(refusal) => (sizes::Room::default(), refusal as u16),
    };
    let expected = [number, room.area, room.count];
    // the very bits: 0 is +0
    let bits = |sizes: [f64; 5]| sizes.map(f64::to_bits);
    if refusal != number || numbers != expected || bits(sizes) != bits(room.sizes) {
        return Err(format!(
            "{asked:?}: {refusal} {numbers:?} {sizes:?}, not {expected:?} {:?}",
            room.sizes
        ));
    }
    Ok(match number {
        0 if room.count > 0 => "a room".to_owned(),
        0 => "zeros".to_owned(),
        _ => format!("refused {number}"),
    })
}

/// Lists of other lengths are refused 3 and hold what they held.
fn other_places(field: &Field, ids: &[u16]) -> Result<String, String> {
    for (five, three) in [(4, 3), (6, 3), (5, 2), (5, 4), (0, 0)] {
        let (mut sizes, mut numbers) = (vec![7.5; five], vec![9; three]);
        let refusal = library::measure(field, ids, [1, 64, 1], &mut sizes, &mut numbers);
        let kept =
            sizes.iter().all(|&size| size == 7.5) && numbers.iter().all(|&number| number == 9);
        if refusal != 3 || !kept {
            return Err(format!(
                "{five} and {three} places: {refusal} {sizes:?} {numbers:?}"
            ));
        }
    }
    Ok("refused 3".to_owned())
}
