//! Filter, merge and numbering.

use super::{
    FLAG, Mistake, Model, Regions,
    growth::Grown,
    is_flagged, is_grown,
    records::{Built, Record},
    spans::Spans,
};
use crate::field::Settings;

struct Table {
    model: Model,
    records: Vec<Record>,
}

/// The regions, and the records after the merge.
pub fn finish(
    model: Model,
    spans: &Spans,
    grown: &Grown,
    built: Built,
    settings: Settings,
) -> (Regions, Vec<Record>) {
    let mut table = Table {
        model,
        records: built.records,
    };
    table.filter(usize::from(settings.least_area));
    table.merge(usize::from(settings.merge_area));
    let overlaps = match model.mistake {
        Some(Mistake::OverlapsOfSpans) => built.overlapping_spans,
        _ => table.overlaps(),
    };
    let (numbers, last) = table.number(spans, grown);
    let ids: Vec<_> = grown
        .ids
        .iter()
        .map(|&id| {
            if is_flagged(id) {
                let becomes_zero = model.has(Mistake::FlaggedBecomeZero);
                if becomes_zero { 0 } else { id }
            } else {
                numbers[usize::from(id)]
            }
        })
        .collect();
    let max_region = match model.mistake {
        Some(Mistake::MaxIsNext) => grown.next,
        Some(Mistake::MaxOfUsed) => {
            let used = ids.iter().copied().filter(|&id| is_grown(id));
            used.max().unwrap_or(0)
        }
        _ => last,
    };
    let regions = Regions {
        ids,
        max_region,
        overlaps,
        cut: table.records.iter().filter(|record| record.cut).count(),
    };
    (regions, table.records)
}

/// "From now on an id that no span bears takes no number" (request A4): each id in use becomes the number of ids in use
/// up to it.
pub fn dense(regions: Regions) -> Regions {
    let mut in_use = vec![false; usize::from(FLAG)];
    for &id in regions.ids.iter().filter(|&&id| is_grown(id)) {
        in_use[usize::from(id)] = true;
    }
    let mut last = 0;
    let mut numbers = vec![0; in_use.len()];
    for (id, _) in in_use.iter().enumerate().filter(|(_, used)| **used) {
        last += 1;
        numbers[id] = last;
    }
    let number = |&id: &u16| {
        if is_flagged(id) {
            id
        } else {
            numbers[usize::from(id)]
        }
    };
    Regions {
        ids: regions.ids.iter().map(number).collect(),
        max_region: last,
        ..regions
    }
}

impl Table {
    fn has(&self, mistake: Mistake) -> bool {
        self.model.has(mistake)
    }

    /// From each unvisited nonempty record in order, gather the unvisited records that can be reached through
    /// neighbour lists; all gathered are then visited. A group under the least area that lists no flagged id gets id 0
    /// and count 0.
    fn filter(&mut self, least_area: usize) {
        let mut visited = vec![false; self.records.len()];
        for first in 1..self.records.len() {
            let empty = self.records[first].count == 0;
            if visited[first] || (empty && !self.has(Mistake::FilterEmptyRecords)) {
                continue;
            }
            let group = self.gather(first, &mut visited);
            let size: usize = group.iter().map(|&i| self.records[i].count).sum();
            let is_small = if self.has(Mistake::FilterAtLeastArea) {
                size <= least_area
            } else {
                size < least_area
            };
            let is_kept = match self.model.mistake {
                Some(Mistake::FilterFlaggedIgnored) => false,
                Some(Mistake::FilterFlaggedFirst) => self.lists(first, is_flagged),
                Some(Mistake::FilterZeroKeeps) => group
                    .iter()
                    .any(|&i| self.lists(i, |id| is_flagged(id) || id == 0)),
                _ => group.iter().any(|&i| self.lists(i, is_flagged)),
            };
            if is_small && !is_kept {
                let removed = if self.has(Mistake::FilterRemovesFirst) {
                    &group[..1]
                } else {
                    &group[..]
                };
                for &i in removed {
                    let count = self.records[i].count;
                    let own = self.has(Mistake::TellsOwnCount);
                    self.records[i].removed_with = Some(if own { count } else { size });
                    if !self.has(Mistake::FilterKeepsId) {
                        self.records[i].id = 0;
                    }
                    if !self.has(Mistake::FilterKeepsCount) {
                        self.records[i].count = 0;
                    }
                }
            }
        }
    }

    /// Whether a record's neighbour list has an id of some sort.
    fn lists(&self, i: usize, sort: impl Fn(u16) -> bool) -> bool {
        self.records[i].neighbours.iter().any(|&id| sort(id))
    }

    /// The unvisited records that can be reached from one of them, itself first.
    fn gather(&self, first: usize, visited: &mut [bool]) -> Vec<usize> {
        let mut group = vec![first];
        let mut met = if self.has(Mistake::FilterVisitedAgain) {
            vec![false; visited.len()]
        } else {
            visited.to_vec()
        };
        met[first] = true;
        let mut done = 0;
        while done < group.len() {
            for i in self.listed_by(group[done]) {
                if !met[i] {
                    met[i] = true;
                    group.push(i);
                }
            }
            done += 1;
            if self.has(Mistake::FilterOneStep) {
                break;
            }
        }
        for &i in &group {
            visited[i] = true;
        }
        group
    }

    /// The records in a record's neighbour list that have not been removed.
    fn listed_by(&self, i: usize) -> Vec<usize> {
        if self.has(Mistake::FilterSingle) {
            return Vec::new();
        }
        let numbers = self.records[i].neighbours.iter().copied();
        let mut listed: Vec<_> = numbers
            .filter(|&id| is_grown(id))
            .map(usize::from)
            .collect();
        if self.has(Mistake::FilterBothWays) {
            let lists_it = |&j: &usize| self.records[j].neighbours.contains(&(i as u16));
            listed.extend((1..self.records.len()).filter(lists_it));
        }
        listed.retain(|&j| self.records[j].id != 0);
        listed
    }

    /// Rounds until one merges nothing. (Each merge empties a record, so there are no more rounds than records.)
    fn merge(&mut self, merge_area: usize) {
        for _ in 0..=self.records.len() {
            let merged = self.round(merge_area);
            if !merged || self.has(Mistake::MergeOneRound) {
                break;
            }
        }
    }

    fn round(&mut self, merge_area: usize) -> bool {
        let mut merged = false;
        let mut order: Vec<_> = (1..self.records.len()).collect();
        if self.has(Mistake::MergeBackward) {
            order.reverse();
        }
        for i in order {
            if !self.may_merge(i, merge_area) {
                continue;
            }
            let Some(neighbour) = self.pick(i) else {
                continue;
            };
            let merges =
                self.list_each_other(i, neighbour) || self.has(Mistake::MergeWithoutListing);
            if merges {
                if self.has(Mistake::MergeOtherWay) {
                    self.absorb(neighbour, i);
                } else {
                    self.absorb(i, neighbour);
                }
                merged = true;
                if self.has(Mistake::MergeStartsAgain) {
                    break;
                }
            }
        }
        merged
    }

    /// Each live record (id not 0) with spans and without overlap, unless it is above the merge area and lists 0.
    fn may_merge(&self, i: usize, merge_area: usize) -> bool {
        let record = &self.records[i];
        let is_live = record.id != 0 && record.count > 0;
        let overlaps = record.overlap && !self.has(Mistake::MergeOverlapRecord);
        let above = if self.has(Mistake::MergeAreaIsAbove) {
            record.count >= merge_area
        } else {
            record.count > merge_area
        };
        let lists_zero = self.lists(i, |id| match self.model.mistake {
            Some(Mistake::MergeRemovedIsZero) => {
                !is_flagged(id) && self.records[usize::from(id)].id == 0
            }
            Some(Mistake::MergeFlaggedIsZero) => id == 0 || is_flagged(id),
            _ => id == 0,
        });
        let left_alone = match self.model.mistake {
            Some(Mistake::MergeAboveAlone) => above,
            Some(Mistake::MergeZeroAlone) => lists_zero,
            _ => above && lists_zero,
        };
        is_live && !overlaps && !left_alone
    }

    /// The smallest neighbour (first listed on ties) that can absorb the record.
    fn pick(&self, i: usize) -> Option<usize> {
        let mut picked: Option<usize> = None;
        for &id in &self.records[i].neighbours {
            if !is_grown(id) || !self.can_absorb(usize::from(id), i) {
                continue;
            }
            let count = self.records[usize::from(id)].count;
            let is_better = picked.is_none_or(|before| {
                let least = self.records[before].count;
                match self.model.mistake {
                    Some(Mistake::MergeLargest) => count > least,
                    Some(Mistake::MergeFirst) => false,
                    Some(Mistake::MergeTieToLast) => count <= least,
                    _ => count < least,
                }
            });
            if is_better {
                picked = Some(usize::from(id));
            }
        }
        picked
    }

    /// Whether a neighbour is live and without overlap, of the same area, and each lists the other at most once and has
    /// it not as a floor.
    fn can_absorb(&self, neighbour: usize, i: usize) -> bool {
        let (record, other) = (&self.records[i], &self.records[neighbour]);
        let times = |list: &[u16], id| list.iter().filter(|&&listed| listed == id).count();
        let is_removed = other.id == 0 && !self.has(Mistake::MergeRemovedPicked);
        let overlaps = other.overlap && !self.has(Mistake::MergeOverlapNeighbour);
        let same_area = record.area == other.area || self.has(Mistake::MergeAcrossAreas);
        let record_lists_once =
            times(&record.neighbours, other.id) <= 1 || self.has(Mistake::MergeRecordListsTwice);
        let other_lists_once =
            times(&other.neighbours, record.id) <= 1 || self.has(Mistake::MergeNeighbourListsTwice);
        let no_floors = self.has(Mistake::MergeNoFloors);
        let is_floor_of_record = record.floors.contains(&other.id)
            && !no_floors
            && !self.has(Mistake::MergeRecordFloors);
        let is_floor_of_other = other.floors.contains(&record.id)
            && !no_floors
            && !self.has(Mistake::MergeNeighbourFloors);
        let second_choice = self.has(Mistake::MergeSecondChoice);
        neighbour != i
            && !is_removed
            && !overlaps
            && same_area
            && record_lists_once
            && other_lists_once
            && !is_floor_of_record
            && !is_floor_of_other
            && (!second_choice || self.list_each_other(i, neighbour))
    }

    fn list_each_other(&self, i: usize, neighbour: usize) -> bool {
        let (record, other) = (&self.records[i], &self.records[neighbour]);
        record.neighbours.contains(&other.id) && other.neighbours.contains(&record.id)
    }

    /// The neighbour absorbs the record, which keeps count 0 and no list; in live records its id is renamed, own ids
    /// too.
    fn absorb(&mut self, i: usize, neighbour: usize) {
        let record = self.records[i].clone();
        let (old, new) = (record.id, self.records[neighbour].id);
        self.records[neighbour].neighbours = self.joined_list(&record, &self.records[neighbour]);
        if !self.has(Mistake::MergeFloorsNotJoined) {
            for &floor in &record.floors {
                if !self.records[neighbour].floors.contains(&floor) {
                    self.records[neighbour].floors.push(floor);
                }
            }
        }
        if !self.has(Mistake::MergeCountNotAdded) {
            self.records[neighbour].count += record.count;
        }
        self.records[neighbour].cut |= record.cut;
        self.records[i].cut = false;
        self.records[i].count = 0;
        if !self.has(Mistake::MergeKeepsList) {
            self.records[i].neighbours.clear();
        }
        for j in 0..self.records.len() {
            if self.records[j].id != 0 {
                self.rename(j, i, old, new);
            }
        }
    }

    /// The absorber's list from the entry after the record's id, round to the entry before it, then the record's list
    /// from the entry after the absorber's id, round; equal adjacent entries become one.
    fn joined_list(&self, record: &Record, absorber: &Record) -> Vec<u16> {
        let (turned, also) = (
            self.without(&absorber.neighbours, record.id),
            self.without(&record.neighbours, absorber.id),
        );
        let mut joined = if self.has(Mistake::MergeRecordFirst) {
            [also, turned].concat()
        } else {
            [turned, also].concat()
        };
        if self.has(Mistake::MergeDropsAllIds) {
            joined.retain(|&id| id != record.id && id != absorber.id);
        }
        if !self.has(Mistake::MergeDoublesStay) {
            self.drop_doubles(&mut joined);
        }
        joined
    }

    /// A list from the entry after an id, round to the entry before it.
    fn without(&self, list: &[u16], id: u16) -> Vec<u16> {
        let mut turned = list.to_vec();
        let Some(place) = list.iter().position(|&listed| listed == id) else {
            return turned;
        };
        if self.has(Mistake::MergeNotTurned) {
            turned.remove(place);
            return turned;
        }
        turned.rotate_left(place);
        if !self.has(Mistake::MergeKeepsIds) {
            turned.remove(0);
        }
        turned
    }

    /// Equal adjacent entries become one, the last and the first being adjacent, too.
    fn drop_doubles(&self, list: &mut Vec<u16>) {
        list.dedup();
        let ends_meet = !self.has(Mistake::MergeEndsNotAdjacent);
        if ends_meet && list.len() > 1 && list.first() == list.last() {
            list.pop();
        }
    }

    /// Own ids, neighbours and floors of one record are renamed; if a neighbour was, equal adjacent entries become one.
    fn rename(&mut self, j: usize, absorbed: usize, old: u16, new: u16) {
        let own = j == absorbed || !self.has(Mistake::RenameNotOwn);
        let mut record = std::mem::take(&mut self.records[j]);
        if record.id == old && own {
            record.id = new;
            if j == absorbed || !self.has(Mistake::TrailOfOwnMerges) {
                record.became.push(new);
            }
        }
        let mut renamed = self.has(Mistake::RenameDoublesAlways);
        if !self.has(Mistake::RenameNotNeighbours) {
            for id in record.neighbours.iter_mut().filter(|id| **id == old) {
                *id = new;
                renamed = true;
            }
        }
        if !self.has(Mistake::RenameNotFloors) {
            for id in record.floors.iter_mut().filter(|id| **id == old) {
                *id = new;
            }
        }
        if renamed && !self.has(Mistake::RenameDoublesStay) {
            self.drop_doubles(&mut record.neighbours);
        }
        self.records[j] = record;
    }

    /// The number of records with overlap set.
    fn overlaps(&self) -> usize {
        let only_live = self.has(Mistake::OverlapsWithoutRemoved);
        let counts = |record: &&Record| record.overlap && (record.id != 0 || !only_live);
        self.records.iter().filter(counts).count()
    }

    /// Live ids, empty records included, are renumbered from 1 by lowest record. The number of each record, and the
    /// last number given.
    fn number(&self, spans: &Spans, grown: &Grown) -> (Vec<u16>, u16) {
        let mut order: Vec<_> = (0..self.records.len()).collect();
        if self.has(Mistake::NumberInScanOrder) {
            let first_span = |i: &usize| {
                let mut all = 0..spans.number();
                let first = all.find(|&span| usize::from(grown.ids[span]) == *i);
                first.unwrap_or(spans.number())
            };
            order.sort_by_key(first_span);
        }
        let is_used = |id: u16| {
            let has_spans = |record: &Record| record.id == id && record.count > 0;
            !self.has(Mistake::NumberWithoutEmpty) || self.records.iter().any(has_spans)
        };
        let mut new_numbers = vec![0; self.records.len()];
        let mut numbers = vec![0; self.records.len()];
        let mut last = 0;
        for i in order {
            let id = self.records[i].id;
            if id == 0 || !is_used(id) {
                continue;
            }
            let new_number = &mut new_numbers[usize::from(id)];
            if *new_number == 0 || self.has(Mistake::NumberPerRecord) {
                last += 1;
                *new_number = last;
            }
            numbers[i] = *new_number;
        }
        (numbers, last)
    }
}
