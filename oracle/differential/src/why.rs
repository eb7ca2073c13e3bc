//! Request A7, by seed: what the library tells of spans beside the model of document 02's words.

use crate::{
    calls::Call,
    faults,
    lent::Lent,
    library,
    tally::{Tally, only},
};
use oracle::{
    field::{Case, Settings},
    file::{self, Limits},
    levels::{KINDS, Size, at_limits, edges, long_corridor},
    model::{Model, Reasons, Stop},
    refusals::{self, Refusal},
    rng::Rng,
    run, vectors,
};
use std::panic::{AssertUnwindSafe, catch_unwind};

/// A large field every so many seeds.
const LARGE_EVERY: u64 = 50;

/// How many numbers an answer has.
const NUMBERS: usize = 11;

/// The faults that the entry looks at, by their numbers in `faults`; the last two are a span that there is not and a list of another length for the answer.
const FAULTS: [usize; 20] = [
    0, 1, 2, 3, 4, 5, 6, 9, 10, 11, 12, 13, 14, 15, 16, 17, 18, 19, NO_SPAN, NO_LIST,
];
const NO_SPAN: usize = 100;
const NO_LIST: usize = 101;

/// What each reason is called.
const REASONS: [&str; 7] = [
    "none",
    "not walkable",
    "painted",
    "never reached",
    "removed",
    "flooded",
    "expanded",
];

/// Compares the fields of so many seeds.
pub fn compare(first: u64, count: u64) -> Tally {
    let mut tally = Tally::default();
    for seed in first..first + count {
        if tally.is_enough() {
            break;
        }
        let compared = catch_unwind(AssertUnwindSafe(|| compare_field(seed, &mut tally)));
        if compared.is_err() {
            differs(seed, "the comparison panics", &mut tally);
        }
        tally.fields += 1;
        tally.tell_progress("why", count);
    }
    tally
}

fn differs(seed: u64, what: &str, tally: &mut Tally) {
    tally.differs(&format!(
        "why, of seed {seed}: {what}\nagain: {} --seed {seed}",
        only("why", 1)
    ));
}

fn compare_field(seed: u64, tally: &mut Tally) {
    let mut rng = Rng::new(seed ^ 0x3A7);
    let (kind, call) = make(seed, &mut rng);
    let mut compared = |name: &str, result: Result<String, String>| match result {
        Ok(answer) => tally.count(kind, &answer),
        Err(what) => differs(seed, &format!("{kind}, {name}: {what}"), tally),
    };
    let build = reasons(&call);
    for span in asked(&call, &build, &mut rng) {
        let name = format!("span {span}");
        compared(&name, Asked::new(&call, span).compare(&build));
    }
    let mut longer = call.clone();
    longer.workspace_len += rng.within(1..=500);
    let n = call.field.spans();
    let any = rng.within(0..=n.max(1) - 1) as u32;
    compared(
        "a longer workspace",
        Asked::new(&longer, any).compare(&build),
    );
    for _ in 0..3 {
        let mut wrong = call.clone();
        let fault = rng.pick(&FAULTS);
        let mut put = |fault: usize, wrong: &mut Call| {
            if fault < faults::FAULTS {
                faults::put(wrong, fault, &mut rng);
            }
        };
        put(fault, &mut wrong);
        // some have two faults, of which the first by number is told
        let second = if seed % 2 == 0 { NO_SPAN } else { fault / 2 };
        put(second, &mut wrong);
        let mut asked = Asked::new(&wrong, any);
        if fault == NO_SPAN || second == NO_SPAN {
            let n = wrong.field.spans() as u32;
            asked.span = rng.pick(&[n, n + 1, n | 0x1_0000, u32::MAX]);
        }
        if fault == NO_LIST {
            asked.answer_len = rng.pick(&[0, 10, 12]);
        }
        compared(
            &format!("faults {fault} and {second}"),
            asked.compare(&reasons(&wrong)),
        );
    }
}

/// What the model tells of a build, where 1 to 8 let it pass.
pub fn reasons(call: &Call) -> Option<Result<Reasons, Stop>> {
    refusals::region_entry(
        &call.field,
        &call.distances,
        call.max_distance,
        call.ids_len,
        call.workspace_len,
    )
    .ok()?;
    Some(Model::RIGHT.reasons(
        &call.field,
        &call.distances,
        call.max_distance,
        call.settings,
    ))
}

/// The spans to ask for: all of a small field; of a large one the first, the last, and one of each reason, of each flood given back and of the longest trail.
pub fn asked(call: &Call, build: &Option<Result<Reasons, Stop>>, rng: &mut Rng) -> Vec<u32> {
    let n = call.field.spans();
    if n <= 200 {
        return (0..n as u32).collect();
    }
    let mut spans = vec![0, n - 1];
    if let Some(Ok(reasons)) = build {
        let mut found = [None; 14];
        let mut longest = 1;
        let start = rng.within(0..=n - 1);
        for span in (start..n).chain(0..start) {
            let numbers = reasons.numbers(span);
            let sort = 2 * usize::from(numbers[1]) + usize::from(numbers[9] != 0);
            let longer = numbers[7] > longest;
            if found[sort - 1].is_none() || longer {
                found[sort - 1] = Some(span);
                longest = longest.max(numbers[7]);
            }
        }
        spans.extend(found.into_iter().flatten());
    }
    spans.into_iter().map(|span| span as u32).collect()
}

/// A call, with the name of its kind.
fn make(seed: u64, rng: &mut Rng) -> (&'static str, Call) {
    if seed % LARGE_EVERY != 0 {
        return ("small", small(seed, rng));
    }
    let own = |case: Case| own_distances(case.field, case.settings);
    let open = |field| {
        let settings = Settings {
            border_size: 3,
            least_area: 50,
            merge_area: 400,
        };
        own_distances(field, settings)
    };
    match seed / LARGE_EVERY % 8 {
        0 => ("chain", chain(rng.pick(&[500, 2_000, 8_000]))),
        1 => ("at limits", open(at_limits::largest_open(rng))),
        2 => ("at limits", open(at_limits::whole_grid(rng))),
        3 => ("at limits", open(at_limits::highest(rng))),
        4 => ("winding", winding(rng)),
        5 => ("apart", apart(rng.pick(&[32_766, 32_767]))),
        _ => ("large", own(rng.pick(&KINDS).make(Size::Large, seed))),
    }
}

fn own_distances(field: oracle::field::Field, settings: Settings) -> Call {
    let own = run::distances(&field).expect("a sound field");
    Call::fitting(field, own.blurred, own.max_distance, settings)
}

/// A small field, sound or refused, with its own settings or others, and its own distances or others.
fn small(seed: u64, rng: &mut Rng) -> Call {
    let edited = || {
        let case = file::read(&vectors::edited(seed), Limits::PROGRAM).ok()?;
        run::distances(&case.field).is_ok().then_some(case)
    };
    let by_kind = |rng: &mut Rng| rng.pick(&KINDS).make(Size::Small, seed);
    let mut case = if rng.chance(50) {
        edited().unwrap_or_else(|| by_kind(rng))
    } else {
        by_kind(rng)
    };
    if rng.chance(50) {
        case.settings = Settings {
            border_size: rng.pick(&[0, 0, 1, 2, 5, 300]),
            least_area: rng.pick(&[0, 2, 5, 9, 20, 65_535]),
            merge_area: rng.pick(&[0, 5, 20, 60, 65_535]),
        };
    }
    let mut call = own_distances(case.field, case.settings);
    if rng.chance(30) {
        let most = rng.pick(&[1, 2, 4, 7, 16, 510]);
        call.max_distance = most as u16;
        for distance in &mut call.distances {
            *distance = rng.within(0..=most) as u16;
        }
    }
    call
}

/// Corridors whose contours are cut short or just not, in two regions or one, removed, merged or neither.
fn winding(rng: &mut Rng) -> Call {
    let length = rng.pick(&[9_999, 10_000, 10_001, 14_000, 20_100]);
    let field = long_corridor(250, length);
    let mut distances = vec![10; field.spans()];
    if rng.chance(70) {
        distances[rng.within(1..=length - 1)] = 0;
    }
    let settings = Settings {
        border_size: 0,
        least_area: rng.pick(&[0, 0, 20_000]),
        merge_area: rng.pick(&[0, 65_535]),
    };
    Call::fitting(field, distances, 10, settings)
}

/// A path on which every second span is a flood of its own, and each region merges with the next: the first one's trail has as many ids as there are floods.
fn chain(length: usize) -> Call {
    let (field, spans) = edges::path(length);
    let mut distances = vec![0; field.spans()];
    for &span in spans.iter().step_by(2) {
        distances[span] = 6;
    }
    let settings = Settings {
        merge_area: u16::MAX,
        ..Settings::default()
    };
    Call::fitting(field, distances, 6, settings)
}

/// Spans apart, each of distance 2: as many floods as there are ids, and one more.
fn apart(spans: usize) -> Call {
    Call::fitting(edges::apart(spans), vec![2; spans], 2, Settings::default())
}

/// A call for one span; the trail is as long as the call's ids.
pub struct Asked<'a> {
    call: &'a Call,
    span: u32,
    answer_len: usize,
}

impl<'a> Asked<'a> {
    /// With a list for the answer that fits.
    pub fn new(call: &'a Call, span: u32) -> Self {
        Self {
            call,
            span,
            answer_len: NUMBERS,
        }
    }

    /// The refusal before the build, with the answer's list looked at together with the others: "refused 3 (or 1 or 2 where that applies)".
    fn refusal(&self) -> Result<(), Refusal> {
        let call = self.call;
        let trail_len = if self.answer_len == NUMBERS {
            call.ids_len
        } else {
            call.field.spans() + 1
        };
        refusals::explain_entry(
            &call.field,
            &call.distances,
            call.max_distance,
            trail_len,
            call.workspace_len,
            self.span,
        )
    }

    /// Holds the library against the reasons of the build. Gives the answer's sort, or what differs.
    pub fn compare(&self, build: &Option<Result<Reasons, Stop>>) -> Result<String, String> {
        let call = self.call;
        let mut workspace = Lent::new(call.workspace_len);
        let (mut trail, mut answer) = (Lent::new(call.ids_len), Lent::new(self.answer_len));
        let (lent, lent_distances) = (call.field.clone(), call.distances.clone());
        let given = library::explain(
            &lent,
            &lent_distances,
            call.max_distance,
            call.settings,
            workspace.lend(),
            self.span,
            trail.lend(),
            answer.lend(),
        );
        if lent != call.field || lent_distances != call.distances {
            return Err("a list that is lent for reading was changed".to_owned());
        }
        let refused = |number: u16| {
            let mut numbers = [0; NUMBERS];
            numbers[0] = number;
            numbers
        };
        let is_given = |number: u16| match given == number {
            true => Ok(()),
            false => Err(format!("gives {given}, not {number}")),
        };
        if let Err(refusal) = self.refusal() {
            is_given(refusal as u16)?;
            workspace.is_kept("workspace")?;
            trail.is_kept("trail")?;
            if self.answer_len == NUMBERS {
                answer.holds("answer", &refused(refusal as u16))?;
            } else {
                answer.is_kept("answer")?;
            }
            return Ok(refusal.to_string());
        }
        workspace.holds_zeros("workspace")?;
        match build.as_ref().ok_or("the model was not asked")? {
            Err(stop) => {
                is_given(*stop as u16)?;
                answer.holds("answer", &refused(*stop as u16))?;
                trail.is_kept("trail")?;
                Ok(format!("refused {}", *stop as u16))
            }
            Ok(reasons) => {
                let (span, numbers) = (self.span as usize, reasons.numbers(self.span as usize));
                is_given(0)?;
                answer.holds("answer", &numbers)?;
                trail.holds("trail", &reasons.trail_list(span))?;
                let given_back = if numbers[9] != 0 { ", given back" } else { "" };
                let merged = if numbers[7] > 1 { ", merged" } else { "" };
                let reason = REASONS[usize::from(numbers[1])];
                Ok(format!("{reason}{merged}{given_back}"))
            }
        }
    }
}
