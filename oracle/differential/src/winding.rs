//! Request A8: winding corridors whose contours have 39,996, 40,000 or 40,004 steps and more, in records that stay, are
//! removed or are merged. What is expected is written down here, beside what the Rust and the model answer.

use crate::{
    calls::Call,
    tally::{Tally, only},
    why,
};
use oracle::{field::Settings, levels::long_corridor, rng::Rng};

/// The distance of every span but the gap: so great that a flood of it stops at the gap.
const MOST: u16 = 10;

struct Winding {
    name: &'static str,
    /// So many spans; the contour has four steps a span.
    length: usize,
    /// The span of distance 0 that parts the corridor into two regions.
    gap: Option<usize>,
    least_area: u16,
    merge_area: u16,
    cut: usize,
}

/// The least and the merge area are those of `settings`.
const fn winding(
    name: &'static str,
    length: usize,
    gap: Option<usize>,
    settings: (u16, u16),
    cut: usize,
) -> Winding {
    Winding {
        name,
        length,
        gap,
        least_area: settings.0,
        merge_area: settings.1,
        cut,
    }
}

const WINDINGS: [Winding; 10] = [
    winding("39,996 steps", 9_999, None, (0, 0), 0),
    winding("40,000 steps: back with the last", 10_000, None, (0, 0), 0),
    winding("40,004 steps", 10_001, None, (0, 0), 1),
    winding("39,996 steps, removed", 9_999, None, (20_000, 0), 0),
    winding("40,004 steps, removed", 10_001, None, (20_000, 0), 1),
    winding("two cut short", 20_100, Some(10_050), (0, 0), 2),
    winding("two cut short, merged", 20_100, Some(10_050), (0, 65_535), 1),
    winding("absorbed by one that is not", 14_000, Some(10_050), (0, 65_535), 1),
    winding("absorbs one that is not", 14_000, Some(2_050), (0, 65_535), 1),
    winding("two that are not, merged", 14_000, Some(7_050), (0, 65_535), 0),
];

/// Compares all of them.
pub fn compare() -> Tally {
    let mut tally = Tally::default();
    for winding in &WINDINGS {
        tally.fields += 1;
        match winding.compare() {
            Ok(answer) => tally.count(winding.name, &answer),
            Err(what) => tally.differs(&format!("winding corridor, {}: {what}\nagain: {}", winding.name, only("large", 1))),
        }
    }
    tally
}

impl Winding {
    fn compare(&self) -> Result<String, String> {
        let field = long_corridor(250, self.length);
        let mut distances = vec![MOST; field.spans()];
        if let Some(gap) = self.gap {
            distances[gap] = 0;
        }
        let settings = Settings {
            border_size: 0,
            least_area: self.least_area,
            merge_area: self.merge_area,
        };
        let call = Call::fitting(field, distances, MOST, settings);
        let cut = call.regions().map_err(|refusal| refusal.to_string())?.cut;
        if cut != self.cut {
            return Err(format!("the model tells {cut} cut short, not {}", self.cut));
        }
        // why its spans have their numbers: the partial list of neighbours decides what is gathered and merged
        let build = why::reasons(&call);
        for span in why::asked(&call, &build, &mut Rng::new(0)) {
            why::Asked::new(&call, span)
                .compare(&build)
                .map_err(|what| format!("why, span {span}: {what}"))?;
        }
        call.compare_regions()
    }
}
