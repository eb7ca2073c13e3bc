//! The mistakes that can be put into the model.

macro_rules! mistakes {
    (
        $(#[doc = $about:literal] $name:ident,)*
        told: $(#[doc = $about_told:literal] $told:ident,)*
    ) => {
        /// A single mistake: one sentence of document 01, or of request A7, misread.
        #[derive(Debug, Clone, Copy, PartialEq, Eq, PartialOrd, Ord)]
        pub enum Mistake {
            $(#[doc = $about] $name,)*
            $(#[doc = $about_told] $told,)*
        }

        impl Mistake {
            /// Every mistake about document 01, in its order.
            pub const ALL: &[Self] = &[$(Self::$name,)*];

            /// Every mistake about the reasons of request A7: no id shows one.
            pub const TOLD: &[Self] = &[$(Self::$told,)*];

            /// What is misread.
            pub fn about(self) -> &'static str {
                match self {
                    $(Self::$name => $about.trim_ascii(),)*
                    $(Self::$told => $about_told.trim_ascii(),)*
                }
            }
        }
    };
}

mistakes! {
    // Refusals.
    /// a side of 256 is refused
    SideLimit255,
    /// a side of 257 is not refused
    SideLimit257,
    /// the height is not looked at
    HeightUnlimited,
    /// a cell of 63 spans is refused
    CountLimit62,
    /// a cell of 64 spans is not refused
    CountLimit64,
    /// a connection to the layer just past the last is let through
    LayerOfCount,
    /// a connection out of the left or right side is led to the next row
    SidesWrap,
    /// any connection back is an answer, wherever it leads
    AnyAnswer,
    /// connections need no answer
    NoAnswer,
    /// the answer is looked for in direction d+1
    AnswerInNextDirection,
    /// refusals 5 and 6 are given in the order of the spans
    AstrayAndUnansweredTogether,
    /// connections are looked at before the cells' counts
    ConnectionsBeforeCounts,
    /// connections are looked at before the sides
    ConnectionsBeforeSides,

    // Distance rules.
    /// three neighbours of the own area are enough
    EdgeUnderThree,
    /// neighbours of any area count
    EdgeOfAnyArea,
    /// area 0 does not count as an area
    AreaZeroIsEdge,
    /// pass 1 goes through the layers downward
    Pass1LayersDownward,
    /// pass 2 goes through the layers downward, as through rows and columns
    Pass2LayersDownward,
    /// pass 2 goes through the rows upward
    Pass2RowsUpward,
    /// pass 2 goes through the columns upward
    Pass2ColumnsUpward,
    /// pass 1 goes column by column
    Pass1ColumnByColumn,
    /// pass 1 takes corner neighbours (direction d+1) instead of 0's 3 and 3's 2
    Pass1CornersByTurn,
    /// pass 2 takes corner neighbours (direction d+1) instead of 2's 1 and 1's 0
    Pass2CornersByTurn,
    /// a pass looks at the second neighbour even where the first is missing, going round the other way
    PassCornersRound,
    /// a pass leaves the second neighbours out
    PassWithoutCorners,
    /// second neighbours cost 4
    PassCornerFour,
    /// a pass reads the values from before it
    PassFromBefore,
    /// the passes look at areas
    PassLooksAtAreas,
    /// pass 2 comes before pass 1
    Pass2First,
    /// there is no pass 2
    OnePass,
    /// max_distance is the greatest blurred value
    MaxOfBlurred,
    /// max_distance is the greatest raw value of the walkable spans
    MaxOfWalkable,
    /// a raw value of 2 is blurred
    BlurFromTwo,
    /// a raw value of 3 stays
    BlurFromFour,
    /// the blur adds no 5 before it divides
    BlurRoundsDown,
    /// the blur adds 4, so that it rounds to the nearest
    BlurRoundsToNearest,
    /// the blur adds 8, so that it rounds up
    BlurRoundsUp,
    /// a missing corner counts 0
    BlurMissingCornerZero,
    /// a missing corner counts as the neighbour beside it
    BlurMissingCornerNeighbour,
    /// a missing neighbour counts c for both
    BlurMissingNeighbourOnce,
    /// a missing neighbour counts 0 for both
    BlurMissingNeighbourZero,
    /// the blur's corners are in direction d+3
    BlurCornerOtherTurn,
    /// the blur takes neighbours of another area as missing
    BlurLooksAtAreas,
    /// the blur reads what it has written
    BlurInPlace,
    /// the blurred values are not used
    NoBlur,

    // Painting.
    /// earlier paint stays
    PaintEarlierStays,
    /// rows are painted before columns
    PaintRowsFirst,
    /// a strip wider than the field begins beyond it
    PaintNotClipped,
    /// spans that are not walkable are painted, too
    PaintUnwalkable,
    /// the strips are one cell wider
    PaintOneWider,
    /// the lowest span of a cell alone is painted
    PaintLowestLayer,
    /// left and right are the wrong way round
    PaintLeftRight,
    /// low and high are the wrong way round
    PaintLowHigh,
    /// next id stays 1 with a border
    BorderNextOne,
    /// next id is 4 with a border
    BorderNextFour,

    // Levels and stacks.
    /// the level is not rounded
    LevelNotRounded,
    /// the level is rounded down to even
    LevelRoundedDown,
    /// a turn ends, not begins, by lowering the level
    LevelLoweredAfter,
    /// the first level alone is flooded
    FirstLevelOnly,
    /// the level is lowered by 1
    LevelByOne,
    /// the turn number counts 0 to 6
    TurnsOfSeven,
    /// the stacks are not emptied at turn 0
    StacksNotEmptied,
    /// the stack number is (level − distance)/2
    StackOfDifference,
    /// the stack number must be below 7
    StackBelowSeven,
    /// a span above the level goes to no stack
    StackBelowZeroLeftOut,
    /// spans that are not walkable go to the stacks
    StackUnwalkable,
    /// spans go to the stacks column by column
    StackColumnByColumn,
    /// spans go to the stacks from the last to the first
    StackBackward,
    /// what remains comes before this turn's entries
    AppendBefore,
    /// what remains is dropped
    AppendNothing,
    /// entries that have got an id by a flood are appended, too
    AppendWithIds,

    // Expansion.
    /// entries that have an id are not marked used
    ExpandNotMarked,
    /// an entry that took an id goes on looking for a lesser sum
    ExpandLooksAgain,
    /// on ties the last neighbour is taken
    ExpandTieToLast,
    /// source distances are not looked at: the first neighbour is taken
    ExpandFirst,
    /// ids are written at once
    ExpandAtOnce,
    /// an entry's source distance stays 0
    ExpandNoSource,
    /// 1 is added to the source distance
    ExpandPlusOne,
    /// the source distance stays after a flood
    SourceKeptByFlood,
    /// the seventh round ends it
    ExpandSevenRounds,
    /// the ninth round ends it
    ExpandNineRounds,
    /// above level 0, too, there is no limit of rounds
    ExpandUnlimited,
    /// at level 0, too, the eighth round ends it
    ExpandLimitedAtZero,
    /// ids of another area are taken
    ExpandAcrossAreas,
    /// flagged ids are taken
    ExpandFlagged,
    /// the expansion comes after the floods
    ExpandAfterFloods,
    /// there is no last expansion
    NoLastExpansion,

    // Flood.
    /// a failed flood takes a number
    FailedFloodTakesNumber,
    /// the flood is first in, first out
    FloodFirstInFirstOut,
    /// neighbours are pushed from direction 3 down to 0
    FloodPushesBackward,
    /// entries are flooded from the last to the first
    FloodsBackward,
    /// entries are flooded in scan order
    FloodsInScanOrder,
    /// the limit is the level
    LimitLevel,
    /// the limit is the level − 1
    LimitLevelLessOne,
    /// the limit is the level − 4
    LimitLevelLessFour,
    /// a distance equal to the limit is not enough
    LimitExcluded,
    /// there is no limit
    NoLimit,
    /// a flagged neighbour is passed by
    FlaggedNeighbourPasses,
    /// a flagged neighbour is an objection
    FlaggedNeighbourObjects,
    /// a flagged neighbour cancels an objection
    FlaggedNeighbourCancels,
    /// a flagged neighbour of another area ends the looking
    FlaggedNeighbourOfAnyArea,
    /// a flagged corner is passed by
    FlaggedCornerPasses,
    /// a flagged corner ends the looking with no objection
    FlaggedCornerEnds,
    /// the corner's area is not looked at
    CornerOfAnyArea,
    /// the corner beyond a neighbour of another area is looked at
    CornerBeyondOtherArea,
    /// corners are not looked at
    NoCorners,
    /// corners are in direction d+3
    CornerOtherTurn,
    /// corners are looked at after all neighbours
    CornersAfterNeighbours,
    /// a neighbour's id is no objection
    NoNeighbourObjection,
    /// the span keeps its id in spite of an objection
    ObjectionKeepsId,
    /// an objection ends the flood
    ObjectionEndsFlood,
    /// the flood goes over into other areas
    FloodAcrossAreas,

    // Records and contour.
    /// records run to the next id, not included
    RecordsWithoutNext,
    /// an id in the same cell joins the floor list every time
    FloorsTwice,
    /// flagged ids join the floor list
    FloorsFlagged,
    /// only the layers directly below and above are floors
    FloorsNextLayers,
    /// the own id in the same cell does not set overlap
    OwnIdNoOverlap,
    /// any id in the same cell sets overlap
    AnyIdOverlaps,
    /// own ids set overlap in the layers directly below and above only
    OverlapNextLayers,
    /// the record has the area of its last span
    AreaOfLastSpan,
    /// the contour is walked from the last span that has a solid edge
    ContourOfLastSpan,
    /// the contour starts at the last solid direction of four
    ContourFromLastDirection,
    /// an edge is solid where there is no connection
    SolidWithoutConnection,
    /// an edge to id 0 is not listed
    WalkSkipsZero,
    /// the id across the starting edge is not listed
    WalkStartNotListed,
    /// at a solid edge the walker turns to d+3, at an open one to d+1
    WalkOtherTurn,
    /// an id is listed once in all
    WalkListsOnce,
    /// an id is listed at each edge
    WalkListsEach,
    /// it ends at the starting span, whatever the direction
    WalkEndsAtSpan,
    /// it ends after 39,999 steps
    WalkSteps39999,
    /// it ends after 40,001 steps
    WalkSteps40001,
    /// a last entry equal to the first stays
    WalkLastStays,
    /// a list of one is dropped, too
    WalkLastAlwaysDropped,

    // Filter.
    /// a record is reached through the lists of others, too
    FilterBothWays,
    /// each record is a group of its own
    FilterSingle,
    /// records directly listed alone are gathered
    FilterOneStep,
    /// records are gathered though visited
    FilterVisitedAgain,
    /// flagged ids are not looked at
    FilterFlaggedIgnored,
    /// a flagged id in the list of the first record alone counts
    FilterFlaggedFirst,
    /// a list with 0 keeps a group
    FilterZeroKeeps,
    /// a group of the least area is removed
    FilterAtLeastArea,
    /// the first record alone of a group is removed
    FilterRemovesFirst,
    /// a removed record keeps its count
    FilterKeepsCount,
    /// a removed record keeps its id
    FilterKeepsId,
    /// empty records are removed, too
    FilterEmptyRecords,

    // Merge.
    /// there is one round
    MergeOneRound,
    /// a merge begins a new round
    MergeStartsAgain,
    /// records are taken from the last to the first
    MergeBackward,
    /// a record of the merge area counts as above it
    MergeAreaIsAbove,
    /// a record above the merge area is left alone, whether it lists 0 or not
    MergeAboveAlone,
    /// a record that lists 0 is left alone, whatever its size
    MergeZeroAlone,
    /// a removed neighbour counts as 0 in the list
    MergeRemovedIsZero,
    /// a flagged neighbour counts as 0 in the list
    MergeFlaggedIsZero,
    /// a record with overlap merges
    MergeOverlapRecord,
    /// a neighbour with overlap absorbs
    MergeOverlapNeighbour,
    /// the largest neighbour is picked
    MergeLargest,
    /// the first neighbour is picked, whatever its size
    MergeFirst,
    /// on ties the last listed is picked
    MergeTieToLast,
    /// a removed neighbour is picked
    MergeRemovedPicked,
    /// areas are not looked at
    MergeAcrossAreas,
    /// the record may list the neighbour more than once
    MergeRecordListsTwice,
    /// the neighbour may list the record more than once
    MergeNeighbourListsTwice,
    /// the record's floors are not looked at
    MergeRecordFloors,
    /// the neighbour's floors are not looked at
    MergeNeighbourFloors,
    /// no floors are looked at
    MergeNoFloors,
    /// a neighbour that does not list back is passed over for the next
    MergeSecondChoice,
    /// a neighbour that does not list back absorbs nevertheless
    MergeWithoutListing,
    /// the record absorbs the neighbour
    MergeOtherWay,
    /// the lists are joined from their beginnings
    MergeNotTurned,
    /// the record's list comes before the neighbour's
    MergeRecordFirst,
    /// the two ids are not left out of the joined list
    MergeKeepsIds,
    /// every mention of the two ids is left out of the joined list
    MergeDropsAllIds,
    /// equal adjacent entries stay in the joined list
    MergeDoublesStay,
    /// the last and the first are not adjacent in the joined list
    MergeEndsNotAdjacent,
    /// floors are not joined
    MergeFloorsNotJoined,
    /// the count is not added
    MergeCountNotAdded,
    /// the record keeps its list
    MergeKeepsList,
    /// own ids are not renamed: records absorbed before keep their id
    RenameNotOwn,
    /// neighbour lists are not renamed
    RenameNotNeighbours,
    /// floor lists are not renamed
    RenameNotFloors,
    /// equal adjacent entries stay after the renaming
    RenameDoublesStay,
    /// equal adjacent entries become one even where nothing was renamed
    RenameDoublesAlways,

    // Numbering.
    /// empty records get no number
    NumberWithoutEmpty,
    /// numbers are given in scan order
    NumberInScanOrder,
    /// absorbed records get numbers of their own
    NumberPerRecord,
    /// max_region is the next id from before
    MaxIsNext,
    /// max_region is the number of regions in use
    MaxOfUsed,
    /// flagged ids become 0
    FlaggedBecomeZero,
    /// removed records do not count as overlaps
    OverlapsWithoutRemoved,
    /// the spans with overlap are counted
    OverlapsOfSpans,

    // File and listing.
    /// numbers are big-endian
    BigEndian,
    /// the merge area comes before the least area
    AreasExchanged,
    /// the height comes before the width
    SidesExchanged,
    /// bytes after the end are let through
    BytesAfter,
    /// the end record is not needed
    NoEnd,
    /// cells after a cut are taken as empty
    MissingCellsEmpty,
    /// 1,024 cells are refused
    CellLimit1023,
    /// 1,025 cells are not refused
    CellLimit1025,
    /// 200 spans are refused
    SpanLimit199,
    /// 201 spans are not refused
    SpanLimit201,
    /// too many cells are told at the end of the file
    CellsToldAtEnd,
    /// too many spans are told at the span that is too many
    SpansToldAtSpan,
    /// too many spans are told at the end of the file
    SpansToldAtEnd,
    /// a cell's count decides before its kind is looked at
    CountBeforeKind,
    /// no row is printed if w is 0
    NoRowsWithoutWidth,
    /// an empty cell is nothing
    EmptyCellNothing,
    /// layers are printed from the highest down
    LayersDownward,
    /// flagged ids are printed without the flag
    FlagNotPrinted,

    // The reasons of request A7.
    told:
    /// expansion names the first neighbour that has an id
    NamesFirstSource,
    /// expansion names the last neighbour with the least sum
    NamesLastSource,
    /// an expanded span is told as flooded
    ExpandedIsFlooded,
    /// the first flood that gave the span back is named
    NamesFirstFlood,
    /// a failed flood is not named
    FailedFloodsNotNamed,
    /// where a corner objects, the neighbour before it is named
    NamesNeighbourOfCorner,
    /// a flood that gave the span back is named only where the span has no room
    FloodNamedWithoutRoom,
    /// the count is that of the span's own region
    TellsOwnCount,
    /// a removed span tells its flood's id, too
    RemovedTellsId,
    /// a removed span is told as never reached
    RemovedIsUnreached,
    /// the trail ends with the merge of the flood's own record
    TrailOfOwnMerges,
    /// the trail begins with the first merge
    TrailWithoutGrown,
    /// the trail has the first and the last id alone
    TrailOfEnds,
    /// the number is that of the compared form
    NumberCompared,
    /// a painted span tells its id as its number
    PaintedTellsNumber,
}

/// Why some mistakes can't be seen.
mod reason {
    pub const OTHER_CELLS: &str =
        "a pass reads other cells only, so the order of the layers in a cell is never seen";
    pub const EDGE: &str = "a span that lacks a neighbour or has one of another area is at 0 already, and those beside it \
        are at 2 at most";
    pub const DEEP: &str = "a span above 2 has all neighbours and corners, all of its own area: otherwise it or a neighbour \
        would be at 0";
    pub const FAILS_AGAIN: &str = "an entry whose flood has failed fails again, since the id that it met stays; so what \
        remains, or comes again, changes no number";
    pub const MARKED: &str = "entries that have an id are marked used before the first round";
    pub const HALVED: &str =
        "source distances are only compared with each other, and all are halved";
    pub const NO_ID_NO_SOURCE: &str = "a span takes a source distance together with an id and never loses that id, so it is 0 \
        wherever a flood comes";
    pub const ANY_ORDER: &str = "objections come from other floods' ids and from flags, which stay while a flood runs; so it \
        reaches the same spans in any order";
    pub const MEMBERS: &str = "floor lists are only asked whether they hold an unflagged id";
    pub const ONE_AREA: &str =
        "all spans of an id have one area: flood and expansion go over same-area neighbours";
    pub const DEAD: &str =
        "nothing looks at the count of a record of id 0, or at the list of a record without spans";
    pub const BOTH_FLOORS: &str = "floors are mutual, and stay so: one of the two tests is enough";
    pub const ONCE: &str = "each lists the other at most once, and no record lists itself";
    pub const NO_DOUBLES: &str = "a list that was not renamed has no equal adjacent entries";
    pub const TEN_THOUSAND: &str = "a contour has at most four steps a span, so it takes over 10,000 spans to see it; the \
        tests have such a field";
}

impl Mistake {
    /// Whether it is a mistake about refusals or the file: one that fields that are not refused do not tell much of.
    pub fn is_of_files(self) -> bool {
        self < Self::EdgeUnderThree || (Self::BigEndian..=Self::FlagNotPrinted).contains(&self)
    }

    /// Why no field file of the program's size shows the mistake, if none does.
    pub fn unseen(self) -> Option<&'static str> {
        Some(match self {
            Self::Pass1LayersDownward | Self::Pass2LayersDownward => reason::OTHER_CELLS,
            Self::PassCornersRound | Self::PassLooksAtAreas => reason::EDGE,
            Self::BlurMissingCornerZero
            | Self::BlurMissingCornerNeighbour
            | Self::BlurMissingNeighbourOnce
            | Self::BlurMissingNeighbourZero
            | Self::BlurLooksAtAreas => reason::DEEP,
            Self::TurnsOfSeven
            | Self::StacksNotEmptied
            | Self::AppendBefore
            | Self::FloodsInScanOrder => reason::FAILS_AGAIN,
            Self::AppendWithIds => reason::MARKED,
            Self::ExpandPlusOne => reason::HALVED,
            Self::SourceKeptByFlood => reason::NO_ID_NO_SOURCE,
            Self::FloodFirstInFirstOut | Self::FloodPushesBackward => reason::ANY_ORDER,
            Self::FloorsTwice | Self::FloorsFlagged => reason::MEMBERS,
            Self::AreaOfLastSpan => reason::ONE_AREA,
            Self::FilterKeepsCount | Self::MergeKeepsList => reason::DEAD,
            Self::MergeRecordFloors | Self::MergeNeighbourFloors => reason::BOTH_FLOORS,
            Self::MergeDropsAllIds => reason::ONCE,
            Self::RenameDoublesAlways => reason::NO_DOUBLES,
            Self::WalkSteps39999 | Self::WalkSteps40001 => reason::TEN_THOUSAND,
            _ => return None,
        })
    }
}
