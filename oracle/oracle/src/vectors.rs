//! The stored vectors: small field files, sound and damaged, chosen so that mistakes show.

mod batch;
mod edges;
mod plan;
mod search;

use crate::{
    damage::{DAMAGES, spoilt},
    file::{self, Limits},
    levels::{KINDS, Size},
    listing,
    model::{Mistake, Model},
    rng::Rng,
    sketch,
};
pub use batch::{pack, unpack};
use plan::Plan;

/// The folder of the stored vectors: the fields in `stdin`, the answers in `stdout`.
pub const STORED: &str = concat!(env!("CARGO_MANIFEST_DIR"), "/../../crates/vectors");

/// Fields drawn for mistakes that the search does not find by itself.
const DRAFTS: [&str; 7] = [
    include_str!("vectors/drafts/corner-of-the-blur.draft"),
    include_str!("vectors/drafts/last-stack.draft"),
    include_str!("vectors/drafts/later-round.draft"),
    include_str!("vectors/drafts/no-second-choice.draft"),
    include_str!("vectors/drafts/removed-is-not-picked.draft"),
    include_str!("vectors/drafts/removed-is-not-zero.draft"),
    include_str!("vectors/drafts/whole-round.draft"),
];

/// How many files of each kind are taken by their seeds alone.
const OF_EACH_KIND: u64 = 12;

/// The files of the vectors. They are the same on every machine.
pub fn choose() -> Vec<Vec<u8>> {
    let mut files = edges::files();
    files.extend(DRAFTS.iter().map(|draft| {
        let case = sketch::read(draft).expect("the drafts are well drawn");
        file::write(&case)
    }));
    for seed in 0..OF_EACH_KIND {
        let sound = KINDS
            .iter()
            .map(|kind| file::write(&kind.make(Size::Small, seed)));
        files.extend(sound);
        files.extend(DAMAGES.iter().map(|damage| damage.make(seed)));
        files.push(spoilt(seed));
    }
    search::extend(&mut files);
    files
}

/// A sound file of any kind after a few changes or many, of the sorts that the search makes.
pub fn edited(seed: u64) -> Vec<u8> {
    let mut rng = Rng::new(seed);
    let kind = rng.pick(&KINDS);
    let mut plan = Plan::new(&kind.make(Size::Small, rng.number()));
    let most = rng.pick(&[3, 10, 40]);
    for _ in 0..rng.within(1..=most) {
        let before = plan.clone();
        plan.edit(&mut rng);
        if !plan.fits() {
            plan = before;
        }
    }
    file::write(&plan.case())
}

/// The unchanged Rust's answers to files, one after the other.
pub fn answers(files: &[Vec<u8>]) -> String {
    let answer = |file: &Vec<u8>| listing::answer(file, Limits::PROGRAM);
    files.iter().map(answer).collect()
}

/// How many of the files catch each mistake: the mistaken model answers otherwise than the unchanged Rust.
pub fn count_caught(files: &[Vec<u8>]) -> Vec<(Mistake, usize)> {
    let mut counts: Vec<_> = Mistake::ALL.iter().map(|&mistake| (mistake, 0)).collect();
    for file in files {
        let right = Model::RIGHT.compared(file);
        for (mistake, count) in &mut counts {
            *count += usize::from(Model::with(*mistake).compared(file) != right);
        }
    }
    counts
}
