//! A door that closes and opens: a refresh of the stored lists, beside a build of them from nothing.

use crate::{level, run::lent};
use gussetraft::{Rect, Refreshed, Refusal, Stages, build_distance_stages, refresh_distance_field};
use oracle::field::Field;
use std::time::{Duration, Instant};

/// Turns of the door.
const TURNS: usize = 21;

/// A build of the three lists.
#[unsafe(no_mangle)]
#[inline(never)]
pub fn side_door_build(field: &gussetraft::Field, stages: &mut Stages) -> Result<u16, Refusal> {
    build_distance_stages(field, stages)
}

/// A refresh of them.
#[unsafe(no_mangle)]
#[inline(never)]
pub fn side_door_refresh(
    field: &gussetraft::Field,
    door: Rect,
    stages: &mut Stages,
) -> Result<Refreshed, Refusal> {
    refresh_distance_field(field, door, stages)
}

/// The checks of a refresh and nothing else: refused for a rectangle that goes past the last column, which is asked after all of them.
#[unsafe(no_mangle)]
#[inline(never)]
pub fn side_door_checks(
    field: &gussetraft::Field,
    door: Rect,
    stages: &mut Stages,
) -> Result<Refreshed, Refusal> {
    let past = Rect {
        x1: field.w,
        ..door
    };
    refresh_distance_field(field, past, stages)
}

/// The three lists.
#[derive(Debug, Clone, Default, PartialEq, Eq)]
struct Lists {
    pass1: Vec<u16>,
    raw: Vec<u16>,
    blurred: Vec<u16>,
}

impl Lists {
    fn new(n: usize) -> Lists {
        let list = vec![0; n];
        Lists {
            pass1: list.clone(),
            raw: list.clone(),
            blurred: list,
        }
    }

    fn stages(&mut self) -> Stages<'_> {
        Stages {
            pass1: &mut self.pass1,
            raw: &mut self.raw,
            blurred: &mut self.blurred,
        }
    }
}

/// Buildings of some n spans, with a door of 2 by 1 cells in the middle of them: the way through a wall, and a cell of the room behind it.
fn level(n: usize) -> (Field, Rect) {
    let field = level::buildings(n);
    let (x, z) = (field.w / 16 * 8 + 7, field.h / 16 * 8 + 3);
    let door = Rect {
        x0: x,
        z0: z,
        x1: x + 1,
        z1: z,
    };
    (field, door)
}

/// The door's area code.
fn set(field: &mut Field, door: Rect, code: u8) {
    for x in door.x0..=door.x1 {
        let cell = usize::from(x) + usize::from(door.z0) * usize::from(field.w);
        let span = field.index[cell] as usize;
        let storeys = usize::from(field.count[cell]);
        assert_ne!(storeys, 0, "the door is on a floor");
        field.area[span..][..storeys].fill(code);
    }
}

/// Builds, closes the door and refreshes; `mark` is called round the one that is counted. Stops where the two do not give the same.
pub fn counted(n: usize, refreshed: bool, mark: impl Fn(u64)) {
    let (mut field, door) = level(n);
    let spans = field.spans();
    let (mut kept, mut fresh) = (Lists::new(spans), Lists::new(spans));
    build_distance_stages(&lent(&field), &mut kept.stages()).expect("a sound field");
    set(&mut field, door, 0);
    mark(901);
    let most = if refreshed {
        side_door_refresh(&lent(&field), door, &mut kept.stages()).map(|got| got.max_distance)
    } else {
        side_door_build(&lent(&field), &mut fresh.stages())
    };
    mark(2);
    let (lists, other) = if refreshed {
        (&kept, &mut fresh)
    } else {
        (&fresh, &mut kept)
    };
    let built = build_distance_stages(&lent(&field), &mut other.stages());
    assert_eq!(most, built);
    assert_eq!(lists, other, "a refresh does not give what a build gives");
}

/// The checks of a refresh.
pub fn checked(n: usize, mark: impl Fn(u64)) {
    let (field, door) = level(n);
    let mut kept = Lists::new(field.spans());
    mark(901);
    let refused = side_door_checks(&lent(&field), door, &mut kept.stages());
    mark(2);
    assert_eq!(refused, Err(Refusal::WrongRect));
}

/// The number of spans, the rows of the field, those redone in pass 1, pass 2 and the blur, and the least nanoseconds of a build and of a refresh.
pub fn timed(n: usize) -> String {
    let (mut field, door) = level(n);
    let spans = field.spans();
    let (mut kept, mut fresh) = (Lists::new(spans), Lists::new(spans));
    build_distance_stages(&lent(&field), &mut kept.stages()).expect("a sound field");
    let mut best = [Duration::MAX; 2];
    let mut rows = [0; 3];
    for turn in 0..TURNS {
        set(&mut field, door, u8::from(turn % 2 == 1));
        let begun = Instant::now();
        let built = side_door_build(&lent(&field), &mut fresh.stages()).expect("a sound field");
        best[0] = best[0].min(begun.elapsed());
        let begun = Instant::now();
        let got =
            side_door_refresh(&lent(&field), door, &mut kept.stages()).expect("a sound field");
        best[1] = best[1].min(begun.elapsed());
        assert_eq!(got.max_distance, built);
        assert_eq!(kept, fresh, "a refresh does not give what a build gives");
        rows = [got.pass1_rows, got.pass2_rows, got.blur_rows].map(|rows| rows.len());
    }
    let [pass1, pass2, blur] = rows;
    let [build, refresh] = best.map(|time| time.as_nanos());
    format!(
        "{spans} {} {pass1} {pass2} {blur} {build} {refresh}",
        field.h
    )
}
