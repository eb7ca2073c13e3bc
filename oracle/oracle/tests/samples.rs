//! The stored samples.

use oracle::{
    file::{self, Limits},
    model::{Mistake, Model},
    run, samples,
};
use std::{
    fs,
    path::{Path, PathBuf},
};

fn folder() -> PathBuf {
    Path::new(env!("CARGO_MANIFEST_DIR")).join("../../samples")
}

#[test]
fn files_and_listings_are_those_of_the_drafts() {
    let samples = samples::make(&folder()).expect("drafts");
    assert!(samples.len() >= 6);
    for sample in samples {
        let stored = |ending: &str| {
            let path = folder().join(format!("{}.{ending}", sample.name));
            fs::read(&path).unwrap_or_else(|error| panic!("{}: {error}", path.display()))
        };
        assert_eq!(stored("field"), sample.file, "{}", sample.name);
        assert_eq!(
            stored("listing"),
            sample.listing.as_bytes(),
            "{}",
            sample.name
        );
        assert!(
            file::read(&sample.file, Limits::PROGRAM).is_ok(),
            "{}",
            sample.name
        );
        assert_eq!(
            Model::RIGHT.answer(&sample.file),
            sample.listing,
            "{}",
            sample.name
        );
    }
}

/// What the stories in `samples/README.md` say a rule does, a model without that rule does not.
#[test]
fn stories_are_true() {
    let stories = [
        ("two-rooms", Mistake::NoLimit),
        ("failed-flood", Mistake::FailedFloodTakesNumber),
        ("failed-flood", Mistake::FlaggedCornerPasses),
        ("tower", Mistake::MergeNoFloors),
        ("border", Mistake::PaintEarlierStays),
        ("border", Mistake::NumberWithoutEmpty),
        ("spiral", Mistake::NoLimit),
        ("overlap", Mistake::OwnIdNoOverlap),
        ("swamp", Mistake::MergeAcrossAreas),
        ("ledge", Mistake::FilterKeepsId),
        ("catwalk", Mistake::EdgeUnderThree),
        ("closets", Mistake::MergeZeroAlone),
        ("one-way-door", Mistake::NoAnswer),
    ];
    let samples = samples::make(&folder()).expect("drafts");
    for (name, mistake) in stories {
        let sample = samples.iter().find(|sample| sample.name == name);
        let sample = sample.unwrap_or_else(|| panic!("no sample {name}"));
        let mistaken = Model::with(mistake).compared(&sample.file);
        assert_ne!(
            mistaken,
            Model::RIGHT.compared(&sample.file),
            "{name} {mistake:?}"
        );
    }
}

/// The spans of `samples/README.md` have the reasons that it tells: the answer's numbers without the refusal, spans as column, row and layer.
#[test]
fn reasons_are_true() {
    struct Told {
        name: &'static str,
        place: [usize; 3],
        /// Reason, strip, count of the group, least area, grown id, number.
        numbers: [u16; 6],
        trail: &'static [u16],
        from: Option<[usize; 3]>,
        gave_back: Option<(u16, [usize; 3])>,
    }
    let told = |name, place, numbers| Told {
        name,
        place,
        numbers,
        trail: &[],
        from: None,
        gave_back: None,
    };
    let table = [
        told("catwalk", [4, 1, 0], [1, 0, 0, 0, 0, 0]),
        told("border", [0, 5, 0], [2, 1, 0, 0, 0, 0]),
        told("catwalk", [0, 0, 0], [3, 0, 0, 0, 0, 0]),
        told("ledge", [2, 2, 1], [4, 0, 4, 8, 0, 0]),
        Told {
            trail: &[2, 1],
            ..told("closets", [2, 0, 0], [5, 0, 0, 0, 2, 1])
        },
        Told {
            trail: &[2],
            from: Some([1, 4, 1]),
            ..told("tower", [0, 4, 1], [6, 0, 0, 0, 2, 2])
        },
        Told {
            trail: &[1],
            from: Some([2, 4, 0]),
            gave_back: Some((2, [2, 4, 0])),
            ..told("closets", [2, 3, 0], [6, 0, 0, 0, 1, 1])
        },
        Told {
            trail: &[6],
            from: Some([1, 2, 0]),
            gave_back: Some((6, [2, 2, 0])),
            ..told("failed-flood", [1, 1, 0], [6, 0, 0, 0, 6, 2])
        },
    ];
    let samples = samples::make(&folder()).expect("drafts");
    for told in table {
        let Told { name, place, .. } = told;
        let sample = samples.iter().find(|sample| sample.name == name);
        let sample = sample.unwrap_or_else(|| panic!("no sample {name}"));
        let case = file::read(&sample.file, Limits::PROGRAM).expect("a field file");
        let span = |[x, z, layer]: [usize; 3]| {
            let cell = case.field.cell_at(x as u16, z as u16);
            case.field.spans_in(cell).nth(layer).expect("a span")
        };
        let own = run::distances(&case.field).expect("distances");
        let reasons = Model::RIGHT
            .reasons(&case.field, &own.blurred, own.max_distance, case.settings)
            .unwrap_or_else(|stop| panic!("{name}: {stop:?}"));
        let [reason, strip, count, least, grown, number] = told.numbers;
        let (gave, objecting) = told.gave_back.map_or((0, 0), |(id, at)| (id, span(at)));
        let from = told.from.map_or(0, span);
        let length = told.trail.len();
        let expected = [
            0,
            reason,
            strip,
            count,
            least,
            grown,
            from as u16,
            length as u16,
            number,
            gave,
            objecting as u16,
        ];
        let span = span(place);
        assert_eq!(reasons.numbers(span), expected, "{name} {place:?}");
        let trail = &reasons.trail_list(span)[..length];
        assert_eq!(trail, told.trail, "{name} {place:?}");
    }
}
