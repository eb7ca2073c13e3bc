//! Each refusal with each of its causes, and the order of the refusals.

use oracle::{
    field::Field,
    refusals::{self, Refusal, workspace_needed},
};

/// What the two entries are lent, sound at first.
struct Lent {
    field: Field,
    raw_len: usize,
    blurred_len: usize,
    distances: Vec<u16>,
    max_distance: u16,
    ids_len: usize,
    workspace_len: usize,
}

/// A change to what is lent, and the refusal that it brings.
type Cause = (fn(&mut Lent), Refusal);

impl Lent {
    /// An open field of 3 by 2.
    fn sound() -> Self {
        let field = Field::open(3, 2);
        Self {
            raw_len: 6,
            blurred_len: 6,
            distances: vec![0; 6],
            max_distance: 0,
            ids_len: 6,
            workspace_len: workspace_needed(6),
            field,
        }
    }

    /// Two layers in both cells of a row, joined straight.
    fn two_layers() -> Self {
        let field = Field {
            w: 2,
            h: 1,
            index: vec![0, 2],
            count: vec![2, 2],
            area: vec![1; 4],
            con: [
                [255, 255, 0, 255],
                [255, 255, 1, 255],
                [0, 255, 255, 255],
                [1, 255, 255, 255],
            ]
            .concat(),
        };
        Self {
            raw_len: 4,
            blurred_len: 4,
            distances: vec![0; 4],
            max_distance: 0,
            ids_len: 4,
            workspace_len: workspace_needed(4),
            field,
        }
    }

    fn but(mut self, change: impl FnOnce(&mut Self)) -> Self {
        change(&mut self);
        self
    }

    fn at_distance_entry(&self) -> Result<(), Refusal> {
        refusals::distance_entry(&self.field, self.raw_len, self.blurred_len)
    }

    fn at_region_entry(&self) -> Result<(), Refusal> {
        refusals::region_entry(
            &self.field,
            &self.distances,
            self.max_distance,
            self.ids_len,
            self.workspace_len,
        )
    }

    #[track_caller]
    fn refused_by_both(&self, refusal: Refusal) {
        assert_eq!(self.at_distance_entry(), Err(refusal));
        assert_eq!(self.at_region_entry(), Err(refusal));
    }

    #[track_caller]
    fn refused_by_regions(&self, refusal: Refusal) {
        assert_eq!(self.at_distance_entry(), Ok(()));
        assert_eq!(self.at_region_entry(), Err(refusal));
    }
}

#[test]
fn sound_fields_pass() {
    for lent in [Lent::sound(), Lent::two_layers()] {
        assert_eq!(lent.at_distance_entry(), Ok(()));
        assert_eq!(lent.at_region_entry(), Ok(()));
    }
}

#[test]
fn refusal_3_lists_of_the_field() {
    let changes: [fn(&mut Field); 6] = [
        |field| field.index.push(0),
        |field| field.index.truncate(5),
        |field| field.count.push(0),
        |field| field.count.truncate(5),
        |field| field.con.push(255),
        |field| field.con.truncate(23),
    ];
    for change in changes {
        Lent::sound()
            .but(|lent| change(&mut lent.field))
            .refused_by_both(Refusal::WrongLength);
    }
}

#[test]
fn refusal_3_lists_of_the_distance_entry() {
    for (raw_len, blurred_len) in [(5, 6), (7, 6), (6, 5), (6, 7)] {
        let lent = Lent {
            raw_len,
            blurred_len,
            ..Lent::sound()
        };
        assert_eq!(lent.at_distance_entry(), Err(Refusal::WrongLength));
    }
}

#[test]
fn refusal_3_lists_of_the_region_entry() {
    for (distances, ids_len) in [(5, 6), (7, 6), (6, 5), (6, 7)] {
        let lent = Lent {
            distances: vec![0; distances],
            ids_len,
            ..Lent::sound()
        };
        lent.refused_by_regions(Refusal::WrongLength);
    }
}

#[test]
fn refusal_4_causes() {
    let changes: [fn(&mut Field); 4] = [
        |field| field.index[4] = 3,
        |field| field.index[0] = 1,
        |field| field.count[5] = 0,
        |field| field.count[5] = 2,
    ];
    for change in changes {
        Lent::sound()
            .but(|lent| change(&mut lent.field))
            .refused_by_both(Refusal::WrongCells);
    }
}

#[test]
fn index_of_an_empty_cell_is_not_looked_at() {
    let mut field = Field::open(2, 1);
    field.count[0] = 0;
    field.index = vec![9, 0];
    field.area.truncate(1);
    field.con = vec![255; 4];
    assert_eq!(refusals::distance_entry(&field, 1, 1), Ok(()));
}

#[test]
fn refusal_5_causes() {
    // Span 0 is in the corner (0,0), span 4 in the middle of the row z = 1.
    let sides = [(0, 0), (0, 3), (4, 1)];
    for (span, d) in sides {
        Lent::sound()
            .but(|lent| lent.field.con[4 * span + d] = 0)
            .refused_by_both(Refusal::ConnectionAstray);
    }
    for layer in [1, 63, 254] {
        Lent::sound()
            .but(|lent| lent.field.con[2] = layer)
            .refused_by_both(Refusal::ConnectionAstray);
    }
}

#[test]
fn refusal_6_causes() {
    // A side cleared, then two layers crossed on one side only.
    Lent::sound()
        .but(|lent| lent.field.con[2] = 255)
        .refused_by_both(Refusal::ConnectionUnanswered);
    Lent::two_layers()
        .but(|lent| (lent.field.con[2], lent.field.con[6]) = (1, 0))
        .refused_by_both(Refusal::ConnectionUnanswered);
    Lent::two_layers()
        .but(|lent| lent.field.con[6] = 0)
        .refused_by_both(Refusal::ConnectionUnanswered);
}

#[test]
fn crossed_layers_that_answer_each_other_pass() {
    let lent = Lent::two_layers().but(|lent| {
        (lent.field.con[2], lent.field.con[6]) = (1, 0);
        (lent.field.con[8], lent.field.con[12]) = (1, 0);
    });
    assert_eq!(lent.at_region_entry(), Ok(()));
}

#[test]
fn refusal_7_at_the_region_entry_alone() {
    Lent {
        workspace_len: 0,
        ..Lent::sound()
    }
    .refused_by_regions(Refusal::WorkspaceTooShort);
}

#[test]
fn refusal_8_causes() {
    let one_above = Lent {
        distances: vec![0, 0, 0, 0, 0, 5],
        max_distance: 4,
        ..Lent::sound()
    };
    one_above.refused_by_regions(Refusal::DistanceTooGreat);
    Lent {
        max_distance: 511,
        ..Lent::sound()
    }
    .refused_by_regions(Refusal::DistanceTooGreat);
    let at_most = Lent {
        distances: vec![4; 6],
        max_distance: 4,
        ..Lent::sound()
    };
    assert_eq!(at_most.at_region_entry(), Ok(()));
}

/// Causes are added from the last number to the first; each time the new one is given.
#[test]
fn first_refusal_is_given() {
    let mut lent = Lent::sound();
    let causes: [Cause; 8] = [
        (|lent| lent.max_distance = 511, Refusal::DistanceTooGreat),
        (|lent| lent.workspace_len -= 1, Refusal::WorkspaceTooShort),
        (
            |lent| lent.field.con[2] = 255,
            Refusal::ConnectionUnanswered,
        ),
        (
            |lent| lent.field.con[4 * 5 + 1] = 0,
            Refusal::ConnectionAstray,
        ),
        (|lent| lent.field.index[5] = 0, Refusal::WrongCells),
        (|lent| lent.field.con.push(255), Refusal::WrongLength),
        (
            |lent| lent.field.area = vec![1; 65_001],
            Refusal::TooManySpans,
        ),
        (|lent| lent.field.w = 257, Refusal::GridTooLarge),
    ];
    for (change, refusal) in causes {
        change(&mut lent);
        assert_eq!(lent.at_region_entry(), Err(refusal));
    }
}

/// A cause in the last cell goes before a later refusal's cause in the first.
#[test]
fn each_refusal_looks_at_the_whole_field_before_the_next() {
    let unanswered_first_astray_last = Lent::sound().but(|lent| {
        lent.field.con[2] = 255;
        lent.field.con[4 * 5 + 2] = 0;
    });
    unanswered_first_astray_last.refused_by_both(Refusal::ConnectionAstray);
    let astray_first_count_last = Lent::sound().but(|lent| {
        lent.field.con[0] = 0;
        lent.field.count[5] = 64;
    });
    astray_first_count_last.refused_by_both(Refusal::WrongCells);
}

#[test]
fn numbers() {
    let lines = [
        (Refusal::GridTooLarge, "refused 1"),
        (Refusal::TooManySpans, "refused 2"),
        (Refusal::WrongLength, "refused 3"),
        (Refusal::WrongCells, "refused 4"),
        (Refusal::ConnectionAstray, "refused 5"),
        (Refusal::ConnectionUnanswered, "refused 6"),
        (Refusal::WorkspaceTooShort, "refused 7"),
        (Refusal::DistanceTooGreat, "refused 8"),
        (Refusal::BadFile, "refused 20"),
        (Refusal::FileTooLarge, "refused 21"),
    ];
    for (refusal, line) in lines {
        assert_eq!(refusal.to_string(), line);
    }
}
