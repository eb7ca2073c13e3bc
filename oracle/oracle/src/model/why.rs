//! Request A7, "Why has this span no room?", from document 02's sentences: what growth, filter, merge and numbering of this very build noted.

use super::{
    FLAG, GaveBack, Mistake, Model, Regions,
    growth::{Grown, Note},
    is_flagged, merge,
    records::Record,
};
use crate::field::Settings;

/// "exactly one first reason applies".
#[derive(Debug, Clone, PartialEq, Eq)]
pub enum Reason {
    /// "not walkable".
    NotWalkable,
    /// "painted by which strip": 1 to 4.
    Painted {
        /// The strip.
        strip: u16,
    },
    /// "never reached".
    NeverReached,
    /// "removed by the filter, with its group's count and the least area".
    FilteredOut {
        /// The count of the group that was gathered.
        group_count: u16,
        /// The least area.
        least_area: u16,
    },
    /// "its flood id, whether flooded ..".
    Flooded {
        /// The flood's id.
        grown_id: u16,
        /// The flood's id and each that it became.
        trail: Vec<u16>,
        /// The final number, in the dense form.
        number: u16,
    },
    /// ".. or expanded, and for expansion the span whose id it took".
    Expanded {
        /// The flood's id.
        grown_id: u16,
        /// The span whose id it took.
        from_span: u16,
        /// The flood's id and each that it became.
        trail: Vec<u16>,
        /// The final number, in the dense form.
        number: u16,
    },
}

/// The reasons of all spans of a build.
pub struct Reasons {
    model: Model,
    areas: Vec<u8>,
    grown_ids: Vec<u16>,
    notes: Vec<Note>,
    records: Vec<Record>,
    numbers: Vec<u16>,
    least_area: u16,
}

impl Reasons {
    pub(super) fn new(
        model: Model,
        areas: Vec<u8>,
        grown: Grown,
        records: Vec<Record>,
        regions: Regions,
        settings: Settings,
    ) -> Self {
        let regions = if model.has(Mistake::NumberCompared) {
            regions
        } else {
            merge::dense(regions)
        };
        Self {
            model,
            areas,
            grown_ids: grown.ids,
            notes: grown.notes,
            records,
            numbers: regions.ids,
            least_area: settings.least_area,
        }
    }

    /// The reason of a span.
    pub fn reason(&self, span: usize) -> Reason {
        let grown_id = self.grown_ids[span];
        if self.areas[span] == 0 {
            return Reason::NotWalkable;
        }
        if is_flagged(grown_id) {
            let strip = grown_id - FLAG;
            return Reason::Painted { strip };
        }
        if grown_id == 0 {
            return Reason::NeverReached;
        }
        if let Some(count) = self.records[usize::from(grown_id)].removed_with {
            if self.model.has(Mistake::RemovedIsUnreached) {
                return Reason::NeverReached;
            }
            return Reason::FilteredOut {
                group_count: u16::try_from(count).expect("a group below the least area"),
                least_area: self.least_area,
            };
        }
        let (trail, number) = (self.trail(grown_id), self.numbers[span]);
        match self.notes[span].from {
            Some(from) if !self.model.has(Mistake::ExpandedIsFlooded) => Reason::Expanded {
                grown_id,
                from_span: from as u16,
                trail,
                number,
            },
            _ => Reason::Flooded {
                grown_id,
                trail,
                number,
            },
        }
    }

    /// "the trail of merges from the flood's id to the last".
    fn trail(&self, grown_id: u16) -> Vec<u16> {
        let became = &self.records[usize::from(grown_id)].became;
        let mut trail = vec![grown_id];
        match self.model.mistake {
            Some(Mistake::TrailWithoutGrown) if !became.is_empty() => trail = became.clone(),
            Some(Mistake::TrailOfEnds) => trail.extend(became.last()),
            _ => trail.extend(became),
        }
        trail
    }

    /// "The last flood that gave the span back, if any, is named too, by its id, with the objecting span", whatever the reason.
    pub fn gave_back(&self, span: usize) -> Option<GaveBack> {
        let has_room = !matches!(self.numbers[span], 0 | FLAG..);
        let is_named = !(has_room && self.model.has(Mistake::FloodNamedWithoutRoom));
        self.notes[span].gave_back.filter(|_| is_named)
    }

    /// The eleven numbers of the answer; those that a reason does not have are 0.
    pub fn numbers(&self, span: usize) -> [u16; 11] {
        let mut answer = [0; 11];
        let [
            _,
            reason,
            strip,
            count,
            least,
            grown,
            from,
            length,
            number,
            gave,
            objecting,
        ] = &mut answer;
        match self.reason(span) {
            Reason::NotWalkable => *reason = 1,
            Reason::Painted { strip: painted } => {
                (*reason, *strip) = (2, painted);
                if self.model.has(Mistake::PaintedTellsNumber) {
                    *number = self.numbers[span];
                }
            }
            Reason::NeverReached => *reason = 3,
            Reason::FilteredOut {
                group_count,
                least_area,
            } => {
                (*reason, *count, *least) = (4, group_count, least_area);
                if self.model.has(Mistake::RemovedTellsId) {
                    *grown = self.grown_ids[span];
                }
            }
            Reason::Flooded {
                grown_id,
                trail,
                number: last,
            } => {
                (*reason, *grown, *length, *number) = (5, grown_id, trail.len() as u16, last);
            }
            Reason::Expanded {
                grown_id,
                from_span,
                trail,
                number: last,
            } => {
                (*reason, *grown, *length, *number) = (6, grown_id, trail.len() as u16, last);
                *from = from_span;
            }
        }
        if let Some(flood) = self.gave_back(span) {
            (*gave, *objecting) = (flood.id, flood.objecting as u16);
        }
        answer
    }

    /// "The trail goes into a lent list of n numbers .., zeros after it."
    pub fn trail_list(&self, span: usize) -> Vec<u16> {
        let mut list = match self.reason(span) {
            Reason::Flooded { trail, .. } | Reason::Expanded { trail, .. } => trail,
            _ => Vec::new(),
        };
        list.resize(self.areas.len(), 0);
        list
    }
}
