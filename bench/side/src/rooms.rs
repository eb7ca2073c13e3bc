//! Plain rooms of a level, for counting and timing.

use crate::run::lent;
use gussetraft::{Field, Refusal, build_rooms, workspace_len};
use oracle::{field::Case, plain};
use std::time::{Duration, Instant};

/// Turns of a level.
const TURNS: usize = 21;

/// The entry.
#[unsafe(no_mangle)]
#[inline(never)]
pub fn side_plain_rooms(
    field: &Field,
    border_size: u16,
    workspace: &mut [u16],
    ids: &mut [u16],
) -> Result<u16, Refusal> {
    build_rooms(field, border_size, workspace, ids)
}

/// One call; `mark` is called round it. Stops where the answer is not the model's.
pub fn counted(case: &Case, mark: impl Fn(u64)) {
    let n = case.field.spans();
    let (mut workspace, mut ids) = (vec![1; workspace_len(n)], vec![1; n]);
    let border = case.settings.border_size;
    mark(901);
    let most = side_plain_rooms(&lent(&case.field), border, &mut workspace, &mut ids);
    mark(2);
    let model = plain::build(&case.field, border, n, workspace.len()).expect("a sound field");
    assert_eq!(most, Ok(model.max_region));
    assert_eq!(ids, model.ids);
}

/// The number of rooms, and the least nanoseconds of a call over a workspace that is kept.
pub fn timed(case: &Case) -> String {
    let n = case.field.spans();
    let (mut workspace, mut ids) = (vec![0; workspace_len(n)], vec![0; n]);
    let border = case.settings.border_size;
    let mut best = Duration::MAX;
    let mut most = Ok(0);
    for _ in 0..TURNS {
        let begun = Instant::now();
        most = side_plain_rooms(&lent(&case.field), border, &mut workspace, &mut ids);
        best = best.min(begun.elapsed());
    }
    format!("{} {}", most.expect("a sound field"), best.as_nanos())
}
