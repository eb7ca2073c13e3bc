//! Why a span has its number, held against the model of document 02: every number and every list, refused or not.

use gussetraft::{explain_span, workspace_len, GaveBack, Reason, Refusal, Sizes};
use oracle::{
    field::{Case, Field, Settings},
    levels::{edges, Size, KINDS},
    model::{self, Model, Reasons, Stop},
    refusals, run,
};

/// What is lent, and the span asked for.
struct Call<'a> {
    field: &'a Field,
    settings: Settings,
    distances: &'a [u16],
    max_distance: u16,
    span: usize,
    workspace_len: usize,
    trail_len: usize,
}

impl<'a> Call<'a> {
    fn fitting(case: &'a Case, distances: &'a [u16], max_distance: u16) -> Self {
        let n = case.field.spans();
        Self {
            field: &case.field,
            settings: case.settings,
            distances,
            max_distance,
            span: 0,
            workspace_len: workspace_len(n),
            trail_len: n,
        }
    }

    /// The refusals before the build, by the oracle.
    fn refusal(&self) -> Option<Refusal> {
        refusals::explain_entry(
            self.field,
            self.distances,
            self.max_distance,
            self.trail_len,
            self.workspace_len,
            self.span as u32,
        )
        .err()
        .map(|refusal| Refusal::from_number(refusal as u16).expect("a number of the function"))
    }

    /// Holds a call against reasons, or the refusal of a build that stopped.
    fn check(&self, name: &str, expected: Result<&Reasons, Stop>) {
        let lent = gussetraft::Field {
            w: self.field.w,
            h: self.field.h,
            index: &self.field.index,
            count: &self.field.count,
            area: &self.field.area,
            con: &self.field.con,
        };
        let sizes = Sizes {
            border_size: self.settings.border_size,
            min_region_area: self.settings.least_area,
            merge_region_area: self.settings.merge_area,
        };
        let (work, held) = (scribbled(self.workspace_len), scribbled(self.trail_len));
        let (mut workspace, mut trail) = (work.clone(), held.clone());
        let told = explain_span(
            &lent,
            self.distances,
            self.max_distance,
            &sizes,
            &mut workspace,
            self.span,
            &mut trail,
        );
        let zeroed = workspace.iter().all(|&x| x == 0);
        if let Some(refusal) = self.refusal() {
            assert_eq!(told, Err(refusal), "{name}");
            assert!(workspace == work && trail == held, "{name}: lists");
            return;
        }
        assert!(zeroed, "{name}: workspace");
        match expected {
            Err(stop) => {
                assert_eq!(told.map_err(Refusal::number), Err(stop as u16), "{name}");
                assert!(trail == held, "{name}: trail");
            }
            Ok(reasons) => {
                let told = told.unwrap_or_else(|refusal| panic!("{name}: {refusal}"));
                let (reason, of_trail) = of_model(reasons.reason(self.span));
                assert_eq!(told.reason, reason, "{name}");
                assert_eq!(told.trail, of_trail, "{name}: trail");
                let gave_back = reasons.gave_back(self.span).map(|flood| GaveBack {
                    id: flood.id,
                    objecting_span: flood.objecting,
                });
                assert_eq!(told.gave_back, gave_back, "{name}: the flood");
                assert!(trail == reasons.trail_list(self.span), "{name}: list");
            }
        }
    }
}

/// A list that is no answer: what a refused call must leave as it is, and what any other must write over.
fn scribbled(len: usize) -> Vec<u16> {
    (0..len).map(|place| (place * 40_503 + 7) as u16).collect()
}

fn of_model(reason: model::Reason) -> (Reason, Vec<u16>) {
    use model::Reason as Told;
    match reason {
        Told::NotWalkable => (Reason::NotWalkable, Vec::new()),
        Told::Painted { strip } => (Reason::Painted { strip }, Vec::new()),
        Told::NeverReached => (Reason::NeverReached, Vec::new()),
        Told::FilteredOut {
            group_count,
            least_area,
        } => (
            Reason::FilteredOut {
                group_count,
                least_area,
            },
            Vec::new(),
        ),
        Told::Flooded {
            grown_id,
            trail,
            number,
        } => (Reason::Flooded { grown_id, number }, trail),
        Told::Expanded {
            grown_id,
            from_span,
            trail,
            number,
        } => {
            let from_span = usize::from(from_span);
            (
                Reason::Expanded {
                    grown_id,
                    from_span,
                    number,
                },
                trail,
            )
        }
    }
}

#[test]
fn every_span_of_small_fields_of_every_kind() {
    for kind in KINDS {
        for seed in 0..6 {
            let case = kind.make(Size::Small, seed);
            let own = run::distances(&case.field).expect("distances");
            let reasons = Model::RIGHT
                .reasons(&case.field, &own.blurred, own.max_distance, case.settings)
                .unwrap_or_else(|stop| panic!("{stop:?}"));
            let mut call = Call::fitting(&case, &own.blurred, own.max_distance);
            for span in 0..case.field.spans() {
                call.span = span;
                call.check(&format!("{} {seed} {span}", kind.name), Ok(&reasons));
            }
        }
    }
}

#[test]
fn ids_run_out() {
    let case = Case {
        field: edges::apart(32_767),
        settings: Settings::default(),
    };
    let distances = vec![2; 32_767];
    Call::fitting(&case, &distances, 2).check("32,767 floods", Err(Stop::Ids));
}

#[test]
fn refused() {
    let case = Case {
        field: Field::open(7, 5),
        settings: Settings::default(),
    };
    let n = case.field.spans();
    let own = run::distances(&case.field).expect("distances");
    let reasons = Model::RIGHT
        .reasons(&case.field, &own.blurred, own.max_distance, case.settings)
        .unwrap_or_else(|stop| panic!("{stop:?}"));
    let call = |span| Call {
        span,
        ..Call::fitting(&case, &own.blurred, own.max_distance)
    };
    for span in [n - 1, n, u32::MAX as usize] {
        call(span).check("a span", Ok(&reasons));
    }
    assert_eq!(call(n).refusal(), Some(Refusal::NoSuchSpan));
    for trail_len in [0, n - 1, n + 1] {
        let wrong = Call {
            trail_len,
            ..call(n)
        };
        assert_eq!(wrong.refusal(), Some(Refusal::WrongLength));
        wrong.check("a wrong trail", Ok(&reasons));
    }
    let short = Call {
        workspace_len: workspace_len(n) - 1,
        ..call(n)
    };
    assert_eq!(short.refusal(), Some(Refusal::TooShort));
    short.check("a short workspace", Ok(&reasons));
    let far = Call {
        max_distance: 511,
        ..call(n)
    };
    assert_eq!(far.refusal(), Some(Refusal::TooFar));
    far.check("far", Ok(&reasons));
    let mut damaged = case.clone();
    damaged.field.con[2] = 255;
    let unanswered = Call {
        span: n,
        ..Call::fitting(&damaged, &own.blurred, own.max_distance)
    };
    assert_eq!(unanswered.refusal(), Some(Refusal::WrongBack));
    unanswered.check("unanswered", Ok(&reasons));
}
