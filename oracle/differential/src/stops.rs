//! Request A6: fields at the edges where ids or source distances run out. What is expected is written down here, beside what the Rust
//! and the model answer.

use crate::{
    calls::Call,
    tally::{Tally, only},
    why,
};
use oracle::{
    field::Settings,
    levels::edges::{self, Steps},
};

struct Edge {
    name: &'static str,
    make: fn() -> Call,
    refusal: Option<u16>,
}

const EDGES: [Edge; 6] = [
    Edge {
        name: "32,766 floods",
        make: || apart(32_766),
        refusal: None,
    },
    Edge {
        name: "32,767 floods",
        make: || apart(32_767),
        refusal: Some(12),
    },
    Edge {
        name: "a sum of 65,534",
        make: || path(edges::from_one_end(32_768)),
        refusal: None,
    },
    Edge {
        name: "a sum of 65,536",
        make: || path(edges::from_one_end(32_769)),
        refusal: Some(13),
    },
    Edge {
        name: "65,534 beside a nearer neighbour",
        make: || path(edges::from_both_ends(544, 32_222)),
        refusal: None,
    },
    Edge {
        name: "65,536 beside a nearer neighbour",
        make: || path(edges::from_both_ends(544, 32_223)),
        refusal: Some(13),
    },
];

/// Spans apart, each of distance 2.
fn apart(spans: usize) -> Call {
    Call::fitting(edges::apart(spans), vec![2; spans], 2, Settings::default())
}

fn path(steps: Steps) -> Call {
    let (field, spans) = edges::path(steps.length);
    let mut distances = vec![0; field.spans()];
    for (&span, distance) in spans.iter().zip(steps.distances) {
        distances[span] = distance;
    }
    Call::fitting(field, distances, steps.max_distance, Settings::default())
}

/// Compares the first so many of them; the last four take the Rust the square of their length.
pub fn compare(count: u64) -> Tally {
    let mut tally = Tally::default();
    for edge in EDGES.iter().take(count as usize) {
        tally.fields += 1;
        match edge.compare() {
            Ok(answer) => tally.count(edge.name, &answer),
            Err(what) => tally.differs(&format!("{}: {what}\nagain: {}", edge.name, only("edges", 6))),
        }
    }
    tally
}

impl Edge {
    fn compare(&self) -> Result<String, String> {
        let call = (self.make)();
        let refusal = call.regions().err().map(|refusal| refusal as u16);
        if refusal != self.refusal {
            return Err(format!("the model tells {refusal:?}, not {:?}", self.refusal));
        }
        // "12 and 13 follow as there": the first span and the last
        let build = why::reasons(&call);
        for span in [0, call.field.spans() - 1] {
            why::Asked::new(&call, span as u32)
                .compare(&build)
                .map_err(|what| format!("why, span {span}: {what}"))?;
        }
        call.compare_regions()
    }
}
