//! Flood and expansion rules: from distances to the ids before filter and merge.

use super::{FLAG, Mistake, Model, is_flagged, is_grown, spans::Spans};

/// What has grown.
pub struct Grown {
    /// The id of each span.
    pub ids: Vec<u16>,
    /// The next id.
    pub next: u16,
    /// What growth did to each span (request A7).
    pub notes: Vec<Note>,
}

/// What growth did to a span.
#[derive(Clone, Copy, Default)]
pub struct Note {
    /// "for expansion the span whose id it took".
    pub from: Option<usize>,
    /// "The last flood that gave the span back, if any".
    pub gave_back: Option<GaveBack>,
}

/// A flood that gave a span back: with an objection the span returned to id 0.
#[derive(Debug, Clone, Copy, PartialEq, Eq)]
pub struct GaveBack {
    /// The flood's id.
    pub id: u16,
    /// The objecting span.
    pub objecting: usize,
}

/// The id that an expansion finds for a span.
struct Found {
    id: u16,
    sum: u16,
    from: usize,
}

/// What stops growth (request A6): the first met in the order of the rules.
#[derive(Debug, Clone, Copy, PartialEq, Eq)]
pub enum Stop {
    /// A successful flood would make the next id 0x8000.
    Ids = 12,
    /// A sum that expansion computes would exceed 65,535.
    Sum = 13,
}

/// A span on a level stack.
#[derive(Clone, Copy)]
struct Entry {
    span: usize,
    used: bool,
}

impl Entry {
    fn new(span: usize) -> Self {
        Self { span, used: false }
    }
}

struct Growth<'a> {
    model: Model,
    spans: &'a Spans,
    distances: &'a [u16],
    ids: Vec<u16>,
    source_distances: Vec<u16>,
    next: u16,
    notes: Vec<Note>,
}

pub fn grow(
    model: Model,
    spans: &Spans,
    distances: &[u16],
    max_distance: u16,
    border_size: u16,
) -> Result<Grown, Stop> {
    let mut growth = Growth {
        model,
        spans,
        distances,
        ids: vec![0; spans.number()],
        source_distances: vec![0; spans.number()],
        next: 1,
        notes: vec![Note::default(); spans.number()],
    };
    if border_size > 0 {
        growth.paint(usize::from(border_size));
        growth.next = match model.mistake {
            Some(Mistake::BorderNextOne) => 1,
            Some(Mistake::BorderNextFour) => 4,
            _ => 5,
        };
    }
    growth.turns(max_distance)?;
    if !model.has(Mistake::NoLastExpansion) {
        growth.last_expansion()?;
    }
    Ok(Grown {
        ids: growth.ids,
        next: growth.next,
        notes: growth.notes,
    })
}

impl Growth<'_> {
    fn has(&self, mistake: Mistake) -> bool {
        self.model.has(mistake)
    }

    /// Walkable spans are painted with 0x8000 plus 1 (left columns), 2 (right), 3 (low rows), 4 (high rows), later
    /// paint over earlier, each strip clipped to the field.
    fn paint(&mut self, border_size: usize) {
        let size = border_size + usize::from(self.has(Mistake::PaintOneWider));
        let (w, h) = (self.spans.w, self.spans.h);
        for span in 0..self.spans.number() {
            let (x, z) = (self.spans.get(span).x, self.spans.get(span).z);
            let mut strips = [
                (1, x < size),
                (2, x + size >= w),
                (3, z < size),
                (4, z + size >= h),
            ];
            if self.has(Mistake::PaintNotClipped) {
                strips[1].1 &= size <= w;
                strips[3].1 &= size <= h;
            }
            if self.has(Mistake::PaintLeftRight) {
                (strips[0].0, strips[1].0) = (2, 1);
            }
            if self.has(Mistake::PaintLowHigh) {
                (strips[2].0, strips[3].0) = (4, 3);
            }
            if self.has(Mistake::PaintEarlierStays) {
                strips.reverse();
            }
            if self.has(Mistake::PaintRowsFirst) {
                strips.rotate_left(2);
            }
            let above_lowest = self.spans.layers(x, z).start != span;
            if self.has(Mistake::PaintLowestLayer) && above_lowest {
                continue;
            }
            if !self.spans.is_walkable(span) && !self.has(Mistake::PaintUnwalkable) {
                continue;
            }
            for (number, inside) in strips {
                if inside {
                    self.ids[span] = FLAG + number;
                }
            }
        }
    }

    /// The turns, from the greatest distance down to level 0.
    fn turns(&mut self, max_distance: u16) -> Result<(), Stop> {
        let mut level = match self.model.mistake {
            Some(Mistake::LevelNotRounded) => max_distance,
            Some(Mistake::LevelRoundedDown) => max_distance / 2 * 2,
            _ => max_distance.div_ceil(2) * 2,
        };
        let lowered = if self.has(Mistake::LevelByOne) { 1 } else { 2 };
        let turns = if self.has(Mistake::TurnsOfSeven) {
            7
        } else {
            8
        };
        let mut stacks: [Vec<Entry>; 8] = Default::default();
        let mut turn = 0;
        let mut is_first = true;
        while level > 0 {
            if !self.has(Mistake::LevelLoweredAfter) {
                level = level.saturating_sub(lowered);
            }
            if turn == 0 {
                self.load(&mut stacks, level);
            } else {
                self.append(&mut stacks, turn);
            }
            if self.has(Mistake::ExpandAfterFloods) {
                self.floods(&stacks[turn], level)?;
                self.expand(&mut stacks[turn], level)?;
            } else {
                self.expand(&mut stacks[turn], level)?;
                if is_first || !self.has(Mistake::FirstLevelOnly) {
                    self.floods(&stacks[turn], level)?;
                }
            }
            if self.has(Mistake::LevelLoweredAfter) {
                level = level.saturating_sub(lowered);
            }
            turn = (turn + 1) % turns;
            is_first = false;
        }
        Ok(())
    }

    /// All stacks are emptied and every walkable span of id 0 goes, in scan order, to the stack numbered (level/2 −
    /// distance/2, not below 0, both halves rounded down) if below 8.
    fn load(&self, stacks: &mut [Vec<Entry>; 8], level: u16) {
        if !self.has(Mistake::StacksNotEmptied) {
            stacks.iter_mut().for_each(Vec::clear);
        }
        let mut order: Vec<_> = (0..self.spans.number()).collect();
        if self.has(Mistake::StackColumnByColumn) {
            order = self.spans.column_by_column();
        }
        if self.has(Mistake::StackBackward) {
            order.reverse();
        }
        let end = if self.has(Mistake::StackBelowSeven) {
            7
        } else {
            8
        };
        for span in order {
            let walkable = self.spans.is_walkable(span) || self.has(Mistake::StackUnwalkable);
            if !walkable || self.ids[span] != 0 {
                continue;
            }
            let distance = self.distances[span];
            if self.has(Mistake::StackBelowZeroLeftOut) && level / 2 < distance / 2 {
                continue;
            }
            let number = if self.has(Mistake::StackOfDifference) {
                level.saturating_sub(distance) / 2
            } else {
                (level / 2).saturating_sub(distance / 2)
            };
            if number < end {
                stacks[usize::from(number)].push(Entry::new(span));
            }
        }
    }

    /// What remains of the stack before is appended to this turn's.
    fn append(&self, stacks: &mut [Vec<Entry>; 8], turn: usize) {
        let remains = |entry: &&Entry| {
            !entry.used && (self.ids[entry.span] == 0 || self.has(Mistake::AppendWithIds))
        };
        let rest: Vec<_> = stacks[turn - 1].iter().filter(remains).copied().collect();
        if self.has(Mistake::AppendNothing) {
            return;
        }
        if self.has(Mistake::AppendBefore) {
            stacks[turn].splice(0..0, rest);
        } else {
            stacks[turn].extend(rest);
        }
    }

    /// First, entries that have an id are marked used. Then rounds, until one in which nothing changed, or the eighth
    /// at a level above 0.
    fn expand(&mut self, stack: &mut [Entry], level: u16) -> Result<(), Stop> {
        for entry in stack.iter_mut() {
            if self.ids[entry.span] != 0 && !self.has(Mistake::ExpandNotMarked) {
                entry.used = true;
            }
        }
        let rounds = match self.model.mistake {
            Some(Mistake::ExpandSevenRounds) => 7,
            Some(Mistake::ExpandNineRounds) => 9,
            _ => 8,
        };
        let limited = (level > 0 && !self.has(Mistake::ExpandUnlimited))
            || self.has(Mistake::ExpandLimitedAtZero);
        let mut round = 0;
        loop {
            let changed = self.round(stack)?;
            round += 1;
            if !changed || (limited && round == rounds) {
                return Ok(());
            }
        }
    }

    /// Every unused entry takes the id of a neighbour, and is used then. All are written together at the round's end.
    fn round(&mut self, stack: &mut [Entry]) -> Result<bool, Stop> {
        let mut changes = Vec::new();
        let mut changed = false;
        for entry in stack.iter_mut() {
            let again = self.has(Mistake::ExpandLooksAgain) && is_grown(self.ids[entry.span]);
            if entry.used && !again {
                continue;
            }
            let Some(found) = self.nearest(entry.span)? else {
                continue;
            };
            if again && found.sum >= self.source_distances[entry.span] {
                continue;
            }
            entry.used = true;
            changed = true;
            if self.has(Mistake::ExpandAtOnce) {
                self.take(entry.span, &found);
            } else {
                changes.push((entry.span, found));
            }
        }
        for (span, found) in changes {
            self.take(span, &found);
        }
        Ok(changed)
    }

    fn take(&mut self, span: usize, found: &Found) {
        self.ids[span] = found.id;
        if !self.has(Mistake::ExpandNoSource) {
            self.source_distances[span] = found.sum;
        }
        self.notes[span].from = Some(found.from);
    }

    /// Among same-area neighbours of nonzero unflagged ids, in direction order, the id of the first with the least
    /// source distance plus 2, and that sum. A sum above 65,535 stops growth, whether or not it would be taken.
    fn nearest(&self, span: usize) -> Result<Option<Found>, Stop> {
        let mut nearest: Option<Found> = None;
        for d in 0..4 {
            let neighbour = if self.has(Mistake::ExpandAcrossAreas) {
                self.spans.neighbour(span, d)
            } else {
                self.spans.same_area_neighbour(span, d)
            };
            let Some(neighbour) = neighbour else {
                continue;
            };
            let id = self.ids[neighbour];
            let added = if self.has(Mistake::ExpandPlusOne) {
                1
            } else {
                2
            };
            let takes_flagged = self.has(Mistake::ExpandFlagged);
            if !(is_grown(id) || (takes_flagged && is_flagged(id))) {
                continue;
            }
            let sum = self.source_distances[neighbour]
                .checked_add(added)
                .ok_or(Stop::Sum)?;
            let is_better = nearest.as_ref().is_none_or(|found| {
                if self.has(Mistake::ExpandTieToLast) {
                    sum <= found.sum
                } else {
                    sum < found.sum && !self.has(Mistake::ExpandFirst)
                }
            });
            if let Some(found) = &mut nearest {
                let tie_named = self.has(Mistake::NamesLastSource) && sum == found.sum;
                let first_named = self.has(Mistake::NamesFirstSource);
                if tie_named {
                    found.from = neighbour;
                }
                if is_better {
                    let from = if first_named { found.from } else { neighbour };
                    *found = Found { id, sum, from };
                }
            } else {
                let from = neighbour;
                nearest = Some(Found { id, sum, from });
            }
        }
        Ok(nearest)
    }

    /// Flood from each unused entry of id 0, in stack order, with the next id; only success advances it.
    /// One that would make it 0x8000 stops growth.
    fn floods(&mut self, stack: &[Entry], level: u16) -> Result<(), Stop> {
        let mut order = stack.to_vec();
        if self.has(Mistake::FloodsBackward) {
            order.reverse();
        }
        if self.has(Mistake::FloodsInScanOrder) {
            order.sort_by_key(|entry| entry.span);
        }
        for entry in order {
            if entry.used || self.ids[entry.span] != 0 {
                continue;
            }
            let before = (self.has(Mistake::FailedFloodsNotNamed)).then(|| self.notes.clone());
            let succeeds = self.flood(entry.span, level);
            if let Some(before) = before.filter(|_| !succeeds) {
                self.notes = before;
            }
            if succeeds || self.has(Mistake::FailedFloodTakesNumber) {
                self.next += 1;
                if self.next == FLAG {
                    return Err(Stop::Ids);
                }
            }
        }
        Ok(())
    }

    /// Last in, first out. With an objection a span returns to id 0. Otherwise it counts, and its neighbours join.
    /// Count 0 is failure.
    fn flood(&mut self, start: usize, level: u16) -> bool {
        let limit = match self.model.mistake {
            Some(Mistake::LimitLevel) => level,
            Some(Mistake::LimitLevelLessOne) => level.saturating_sub(1),
            Some(Mistake::LimitLevelLessFour) => level.saturating_sub(4),
            Some(Mistake::LimitExcluded) => level.saturating_sub(2) + 1,
            Some(Mistake::NoLimit) => 0,
            _ => level.saturating_sub(2),
        };
        let mut stack = Vec::new();
        let mut count = 0;
        self.join(start, &mut stack);
        while !stack.is_empty() {
            let place = if self.has(Mistake::FloodFirstInFirstOut) {
                0
            } else {
                stack.len() - 1
            };
            let span = stack.remove(place);
            if let Some(objecting) = self.objection(span) {
                if !self.has(Mistake::ObjectionKeepsId) {
                    self.ids[span] = 0;
                }
                let id = self.next;
                let gave_back = &mut self.notes[span].gave_back;
                if gave_back.is_none() || !self.model.has(Mistake::NamesFirstFlood) {
                    *gave_back = Some(GaveBack { id, objecting });
                }
                if self.has(Mistake::ObjectionEndsFlood) {
                    break;
                }
                continue;
            }
            count += 1;
            for d in 0..4 {
                let d = if self.has(Mistake::FloodPushesBackward) {
                    3 - d
                } else {
                    d
                };
                let neighbour = if self.has(Mistake::FloodAcrossAreas) {
                    self.spans.neighbour(span, d)
                } else {
                    self.spans.same_area_neighbour(span, d)
                };
                if let Some(neighbour) = neighbour
                    && self.ids[neighbour] == 0
                    && self.distances[neighbour] >= limit
                {
                    self.join(neighbour, &mut stack);
                }
            }
        }
        count > 0
    }

    /// The span gets the next id and is pushed. Its source distance is 0 again.
    fn join(&mut self, span: usize, stack: &mut Vec<usize>) {
        self.ids[span] = self.next;
        if !self.has(Mistake::SourceKeptByFlood) {
            self.source_distances[span] = 0;
        }
        stack.push(span);
    }

    /// Directions 0 to 3 over same-area neighbours: a flagged neighbour ends the looking with no objection; another
    /// nonzero id there is an objection; so is another nonzero id on its corner neighbour, if that has the area too,
    /// flagged ids included. Gives "the objecting span".
    fn objection(&self, span: usize) -> Option<usize> {
        let is_other = |id| id != 0 && id != self.next;
        let area = self.spans.area(span);
        let mut objecting_corner = None;
        let unless_flagged = |objecting| (!self.sees_flagged(span)).then_some(objecting);
        for d in 0..4 {
            let Some(neighbour) = self.spans.neighbour(span, d) else {
                continue;
            };
            let id = self.ids[neighbour];
            let same_area = self.spans.area(neighbour) == area;
            if same_area {
                if is_flagged(id) {
                    match self.model.mistake {
                        Some(Mistake::FlaggedNeighbourPasses) => continue,
                        Some(Mistake::FlaggedNeighbourObjects) => return Some(neighbour),
                        _ => break,
                    }
                }
                if is_other(id) && !self.has(Mistake::NoNeighbourObjection) {
                    if self.has(Mistake::FlaggedNeighbourCancels) {
                        return unless_flagged(neighbour);
                    }
                    return Some(neighbour);
                }
            } else {
                if is_flagged(id) && self.has(Mistake::FlaggedNeighbourOfAnyArea) {
                    break;
                }
                if !self.has(Mistake::CornerBeyondOtherArea) {
                    continue;
                }
            }
            let turn = if self.has(Mistake::CornerOtherTurn) {
                3
            } else {
                1
            };
            let Some(corner) = self.spans.neighbour(neighbour, d + turn) else {
                continue;
            };
            let seen = self.spans.area(corner) == area || self.has(Mistake::CornerOfAnyArea);
            if !seen || self.has(Mistake::NoCorners) || !is_other(self.ids[corner]) {
                continue;
            }
            if is_flagged(self.ids[corner]) {
                match self.model.mistake {
                    Some(Mistake::FlaggedCornerPasses) => continue,
                    Some(Mistake::FlaggedCornerEnds) => break,
                    _ => {}
                }
            }
            match self.model.mistake {
                Some(Mistake::FlaggedNeighbourCancels) => return unless_flagged(corner),
                Some(Mistake::CornersAfterNeighbours) => objecting_corner = Some(corner),
                Some(Mistake::NamesNeighbourOfCorner) => return Some(neighbour),
                _ => return Some(corner),
            }
        }
        objecting_corner.and_then(unless_flagged)
    }

    /// Whether any same-area neighbour is flagged.
    fn sees_flagged(&self, span: usize) -> bool {
        (0..4)
            .filter_map(|d| self.spans.same_area_neighbour(span, d))
            .any(|neighbour| is_flagged(self.ids[neighbour]))
    }

    /// Last, all walkable spans of id 0 are expanded at level 0.
    fn last_expansion(&mut self) -> Result<(), Stop> {
        let is_left = |&span: &usize| self.spans.is_walkable(span) && self.ids[span] == 0;
        let left = (0..self.spans.number()).filter(is_left);
        let mut stack: Vec<_> = left.map(Entry::new).collect();
        self.expand(&mut stack, 0)
    }
}
