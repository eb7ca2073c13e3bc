//! What was compared and what differed.

use std::{
    collections::BTreeMap,
    fmt,
    time::{Duration, Instant},
};

/// The parts of the comparison, as its options name them.
const PARTS: [&str; 10] = [
    "small", "large", "edited", "edges", "doors", "rooms", "sizes", "pieces", "results", "why",
];

/// The command that runs so much of one part, and nothing of the others.
pub fn only(part: &str, number: usize) -> String {
    let mut command = "oracle/compare".to_owned();
    for other in PARTS {
        let count = if other == part { number } else { 0 };
        command += &format!(" --{other} {count}");
    }
    command
}

/// Counts of answers by kind, and the differences.
#[derive(Default)]
pub struct Tally {
    counts: BTreeMap<&'static str, BTreeMap<String, usize>>,
    /// How many fields were compared.
    pub fields: usize,
    /// How many differences were found.
    pub differences: usize,
    told: Option<Instant>,
}

impl Tally {
    /// A part ends early after so many differences.
    pub const MOST_DIFFERENCES: usize = 100;

    /// Counts one answer.
    pub fn count(&mut self, kind: &'static str, answer: &str) {
        let answers = self.counts.entry(kind).or_default();
        *answers.entry(answer.to_owned()).or_default() += 1;
    }

    /// Tells a difference at once.
    pub fn differs(&mut self, text: &str) {
        println!("DIFFERENCE: {text}");
        self.differences += 1;
    }

    /// Whether so much differs that going on tells nothing more.
    pub fn is_enough(&self) -> bool {
        self.differences >= Self::MOST_DIFFERENCES
    }

    /// Says on standard error how far it is, twice a minute.
    pub fn tell_progress(&mut self, part: &str, of: u64) {
        let told = self.told.get_or_insert_with(Instant::now);
        if told.elapsed() >= Duration::from_secs(30) {
            *told = Instant::now();
            let (done, differences) = (self.fields, self.differences);
            eprintln!("{part}: {done} of {of} fields, {differences} differences");
        }
    }
}

impl fmt::Display for Tally {
    fn fmt(&self, f: &mut fmt::Formatter) -> fmt::Result {
        let mut sums: BTreeMap<&str, usize> = BTreeMap::new();
        for (kind, answers) in &self.counts {
            writeln!(f, "  {kind:15} {}", row(answers.iter()))?;
            for (answer, count) in answers {
                *sums.entry(answer).or_default() += count;
            }
        }
        writeln!(f, "  {:15} {}", "in all", row(sums.iter()))
    }
}

fn row<'a, S: fmt::Display + 'a>(counts: impl Iterator<Item = (&'a S, &'a usize)>) -> String {
    let texts: Vec<_> = counts
        .map(|(answer, count)| format!("{answer}: {count}"))
        .collect();
    texts.join(", ")
}
