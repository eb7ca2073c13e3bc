//! The search for fields that show mistakes.

use super::plan::Plan;
use crate::{
    file::{self, Limits},
    levels::{KINDS, Size},
    model::{Mistake, Model},
    rng::Rng,
};

/// How many files are to show each mistake.
const WANTED: usize = 8;

/// How many fields are looked at, at most.
const LOOKED_AT: usize = 200_000;

/// How often it is tried to take something away from a field that was found.
const LESSENED: usize = 60;

/// What is known of one mistake.
struct Shown {
    mistake: Mistake,
    /// How many files show it.
    files: usize,
    /// The plans that do.
    plans: Vec<usize>,
}

struct Search {
    rng: Rng,
    shown: Vec<Shown>,
    plans: Vec<Plan>,
}

/// Adds files until each mistake that fields can show is shown by enough of them. Each is a change of a field that shows
/// a mistake already, or of a field by seed, and is taken if it shows a mistake that too few have shown; then it is made
/// as small as it can be and still show that.
pub fn extend(files: &mut Vec<Vec<u8>>) {
    let can_show = |mistake: &&Mistake| !mistake.is_of_files() && mistake.unseen().is_none();
    let nothing_yet = |&mistake| Shown {
        mistake,
        files: 0,
        plans: Vec::new(),
    };
    let mut search = Search {
        rng: Rng::new(0),
        shown: Mistake::ALL
            .iter()
            .filter(can_show)
            .map(nothing_yet)
            .collect(),
        plans: Vec::new(),
    };
    for file in files.iter() {
        if let Some(plan) = plan_of(file) {
            let seen = search.look_at(file, usize::MAX);
            search.note(plan, &seen);
        }
    }
    for _ in 0..LOOKED_AT {
        if search.shown.iter().all(|shown| shown.files >= WANTED) {
            break;
        }
        let plan = search.change();
        if !plan.fits() {
            continue;
        }
        let seen = search.look_at(&file::write(&plan.case()), WANTED);
        if !seen.is_empty() {
            let plan = search.lessen(plan, &seen);
            files.push(file::write(&plan.case()));
            search.note(plan, &seen);
        }
    }
}

/// The plan of a file that is not refused.
fn plan_of(file: &[u8]) -> Option<Plan> {
    let case = file::read(file, Limits::PROGRAM).ok()?;
    let is_refused = Model::RIGHT.compared(file).starts_with("refused");
    (!is_refused).then(|| Plan::new(&case))
}

fn shows(file: &[u8], right: &str, mistake: Mistake) -> bool {
    Model::with(mistake).compared(file) != right
}

impl Search {
    /// The places of the mistakes that a file shows, of those that fewer than so many files have shown.
    fn look_at(&self, file: &[u8], wanted: usize) -> Vec<usize> {
        let right = Model::RIGHT.compared(file);
        let is_seen = |&place: &usize| {
            let shown = &self.shown[place];
            shown.files < wanted && shows(file, &right, shown.mistake)
        };
        (0..self.shown.len()).filter(is_seen).collect()
    }

    fn note(&mut self, plan: Plan, seen: &[usize]) {
        for &place in seen {
            self.shown[place].files += 1;
            self.shown[place].plans.push(self.plans.len());
        }
        self.plans.push(plan);
    }

    /// A few changes of a plan that shows a mistake which too few have shown, or of another.
    fn change(&mut self) -> Plan {
        let rng = &mut self.rng;
        let is_rare = |shown: &&Shown| shown.files < WANTED && !shown.plans.is_empty();
        let rare: Vec<_> = self.shown.iter().filter(is_rare).collect();
        let mut plan = match rng.within(0..=3) {
            0 => {
                let kind = rng.pick(&KINDS);
                Plan::new(&kind.make(Size::Small, rng.number()))
            }
            1..=2 if !rare.is_empty() => {
                let shown = rng.pick(&rare);
                self.plans[rng.pick(&shown.plans)].clone()
            }
            _ => self.plans[rng.within(0..=self.plans.len() - 1)].clone(),
        };
        for _ in 0..rng.within(1..=6) {
            plan.edit(rng);
        }
        plan
    }

    /// A smaller plan that shows the same.
    fn lessen(&mut self, mut plan: Plan, seen: &[usize]) -> Plan {
        for _ in 0..LESSENED {
            let mut smaller = plan.clone();
            smaller.lessen(&mut self.rng);
            let file = file::write(&smaller.case());
            let right = Model::RIGHT.compared(&file);
            let shows_all = seen
                .iter()
                .all(|&place| shows(&file, &right, self.shown[place].mistake));
            if shows_all {
                plan = smaller;
            }
        }
        plan
    }
}
