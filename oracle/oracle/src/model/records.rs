//! Records, and the contour that is walked for each.

use super::{Mistake, Model, growth::Grown, is_flagged, is_grown, spans::Spans};

/// What is known of an id.
#[derive(Clone, Default)]
pub struct Record {
    /// The id: the record's number at first; 0 once it is removed; the absorber's once it is absorbed.
    pub id: u16,
    /// How many spans it has.
    pub count: usize,
    pub area: u8,
    /// Whether a cell holds it twice.
    pub overlap: bool,
    /// The neighbour list: the ids along the contour.
    pub neighbours: Vec<u16>,
    /// The floor list: the ids below and above it.
    pub floors: Vec<u16>,
    /// Whether its contour was cut short, or that of a record it absorbed (request A8).
    pub cut: bool,
    /// The count of the group with which it was removed (request A7).
    pub removed_with: Option<usize>,
    /// Each id that it became by a merge (request A7).
    pub became: Vec<u16>,
}

/// The records, from 0 to the next id.
pub struct Built {
    pub records: Vec<Record>,
    /// How many spans have their own id in the same cell.
    pub overlapping_spans: usize,
}

/// In scan order each span with an unflagged nonzero id adds to its record.
pub fn build(model: Model, spans: &Spans, grown: &Grown) -> Built {
    let record = |id| Record {
        id,
        ..Record::default()
    };
    let mut records: Vec<_> = (0..=grown.next).map(record).collect();
    if model.has(Mistake::RecordsWithoutNext) {
        records.pop();
    }
    let mut overlapping_spans = 0;
    for span in 0..spans.number() {
        let id = grown.ids[span];
        if is_grown(id) {
            let record = &mut records[usize::from(id)];
            record.count += 1;
            overlapping_spans += usize::from(add_floors(model, spans, &grown.ids, span, record));
            add_contour(model, spans, &grown.ids, span, record);
        }
    }
    Built {
        records,
        overlapping_spans,
    }
}

/// Unflagged nonzero ids below or above it in the cell join the floor list once; its own id there sets overlap.
fn add_floors(model: Model, spans: &Spans, ids: &[u16], span: usize, record: &mut Record) -> bool {
    let place = spans.get(span);
    let mut own_is_there = false;
    for other in spans.layers(place.x, place.z) {
        let id = ids[other];
        let joins = is_grown(id) || (model.has(Mistake::FloorsFlagged) && is_flagged(id));
        if other == span || !joins {
            continue;
        }
        let is_next = other.abs_diff(span) == 1;
        let overlaps = id == ids[span] || model.has(Mistake::AnyIdOverlaps);
        if overlaps && (is_next || !model.has(Mistake::OverlapNextLayers)) {
            own_is_there = true;
        }
        if model.has(Mistake::FloorsNextLayers) && !is_next {
            continue;
        }
        if !record.floors.contains(&id) || model.has(Mistake::FloorsTwice) {
            record.floors.push(id);
        }
    }
    if own_is_there && !model.has(Mistake::OwnIdNoOverlap) {
        record.overlap = true;
    }
    own_is_there
}

/// While the neighbour list is empty, the record takes the area, and the contour is walked from the span if it has a
/// solid edge, starting at the first solid direction of four.
fn add_contour(model: Model, spans: &Spans, ids: &[u16], span: usize, record: &mut Record) {
    if model.has(Mistake::AreaOfLastSpan) {
        record.area = spans.area(span);
    }
    if !record.neighbours.is_empty() && !model.has(Mistake::ContourOfLastSpan) {
        return;
    }
    record.area = spans.area(span);
    let contour = Contour { model, spans, ids };
    let mut directions = [0, 1, 2, 3];
    if model.has(Mistake::ContourFromLastDirection) {
        directions.reverse();
    }
    let solid = directions
        .into_iter()
        .find(|&d| contour.is_solid(Walker { span, d }));
    if let Some(d) = solid {
        (record.neighbours, record.cut) = contour.walk(Walker { span, d });
    }
}

/// A walker standing on a span and facing one direction.
#[derive(Clone, Copy, PartialEq, Eq)]
struct Walker {
    span: usize,
    d: usize,
}

struct Contour<'a> {
    model: Model,
    spans: &'a Spans,
    ids: &'a [u16],
}

impl Contour<'_> {
    fn has(&self, mistake: Mistake) -> bool {
        self.model.has(mistake)
    }

    /// The id across the edge that the walker faces, 0 if there is none.
    fn across(&self, walker: Walker) -> u16 {
        let neighbour = self.spans.neighbour(walker.span, walker.d);
        neighbour.map_or(0, |neighbour| self.ids[neighbour])
    }

    /// An edge is solid where the id across it differs from the span's own.
    fn is_solid(&self, walker: Walker) -> bool {
        if self.has(Mistake::SolidWithoutConnection) {
            return self.spans.neighbour(walker.span, walker.d).is_none();
        }
        self.across(walker) != self.ids[walker.span]
    }

    /// The ids listed on the way round from the start, or on the first 40,000 steps of it, each turn and each move
    /// being one; and whether those were used up before the walker was back.
    fn walk(&self, start: Walker) -> (Vec<u16>, bool) {
        let steps = match self.model.mistake {
            Some(Mistake::WalkSteps39999) => 39_999,
            Some(Mistake::WalkSteps40001) => 40_001,
            _ => 40_000,
        };
        let first = self.across(start);
        let mut last_listed = first;
        let mut listed = vec![first];
        if self.has(Mistake::WalkStartNotListed) || (self.has(Mistake::WalkSkipsZero) && first == 0)
        {
            listed.clear();
        }
        let mut walker = start;
        let mut cut = true;
        for _ in 0..steps {
            if self.is_solid(walker) {
                let id = self.across(walker);
                if self.is_listed(&listed, last_listed, id) {
                    last_listed = id;
                    listed.push(id);
                }
                walker = self.turn(walker);
            } else {
                walker = self.step(walker);
            }
            let is_back =
                walker == start || (self.has(Mistake::WalkEndsAtSpan) && walker.span == start.span);
            if is_back {
                cut = false;
                break;
            }
        }
        let droppable = listed.len() > 1 || self.has(Mistake::WalkLastAlwaysDropped);
        if droppable && listed.last() == listed.first() && !self.has(Mistake::WalkLastStays) {
            listed.pop();
        }
        (listed, cut)
    }

    /// At a solid edge, an id other than the last listed is listed.
    fn is_listed(&self, listed: &[u16], last_listed: u16, id: u16) -> bool {
        match self.model.mistake {
            Some(Mistake::WalkListsEach) => true,
            Some(Mistake::WalkListsOnce) => !listed.contains(&id),
            Some(Mistake::WalkSkipsZero) => id != last_listed && id != 0,
            _ => id != last_listed,
        }
    }

    /// The walker turns to d+1.
    fn turn(&self, walker: Walker) -> Walker {
        let turn = if self.has(Mistake::WalkOtherTurn) {
            3
        } else {
            1
        };
        Walker {
            d: (walker.d + turn) % 4,
            ..walker
        }
    }

    /// The walker steps over the edge and turns to d+3.
    fn step(&self, walker: Walker) -> Walker {
        let turn = if self.has(Mistake::WalkOtherTurn) {
            1
        } else {
            3
        };
        let neighbour = self.spans.neighbour(walker.span, walker.d);
        Walker {
            span: neighbour.expect("an open edge leads to a span"),
            d: (walker.d + turn) % 4,
        }
    }
}
