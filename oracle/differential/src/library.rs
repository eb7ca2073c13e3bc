//! The functions of libgussetraft.a as include/gussetraft.h declares them: here the numbers beside a refusal are seen,
//! too, which the safe package does not hand out.

use gussetraft as _; // links the archive
use oracle::{
    doors::{Rect, Stages},
    field::{Field, Settings},
};

/// What the distance entry answers.
#[repr(C)]
#[derive(Debug, Clone, Copy, PartialEq, Eq)]
pub struct DistanceAnswer {
    pub refusal: u16,
    pub max_distance: u16,
}

/// What the region entry answers.
#[repr(C)]
#[derive(Debug, Clone, Copy, PartialEq, Eq)]
pub struct RegionAnswer {
    pub refusal: u16,
    pub max_region: u16,
    pub overlaps: u16,
    pub cut: u16,
}

/// What the mending answers.
#[repr(C)]
#[derive(Debug, Clone, Copy, PartialEq, Eq)]
pub struct MendAnswer {
    pub refusal: u32,
    pub count: u32,
}

/// What plain rooms answer.
#[repr(C)]
#[derive(Debug, Clone, Copy, PartialEq, Eq)]
pub struct RoomAnswer {
    pub refusal: u16,
    pub max_region: u16,
}

/// What a call of the loading answers.
#[repr(C)]
#[derive(Debug, Clone, Copy, Default, PartialEq, Eq)]
pub struct LoadAnswer {
    pub refusal: u32,
    pub position: u32,
}

/// How many numbers a loader has.
pub const LOADER_LEN: usize = 17;

/// The lists that a loader is lent.
#[derive(Debug, Clone, PartialEq, Eq)]
pub struct Lists {
    pub index: Vec<u32>,
    pub count: Vec<u8>,
    pub area: Vec<u8>,
    pub con: Vec<u8>,
}

impl Lists {
    /// Lists for so many cells and spans, with any numbers in them.
    pub fn scribbled(cells: usize, spans: usize, seed: u64) -> Self {
        let number = |place: usize| (place as u64 ^ seed).wrapping_mul(0x9e37_79b9_7f4a_7c15) >> 32;
        Self {
            index: (0..cells).map(|place| number(place) as u32).collect(),
            count: (0..cells).map(|place| number(place + 1) as u8).collect(),
            area: (0..spans).map(|place| number(place + 2) as u8).collect(),
            con: (0..4 * spans)
                .map(|place| number(place + 3) as u8)
                .collect(),
        }
    }
}

#[rustfmt::skip]
unsafe extern "C" {
    fn gussetraft_measure_room_into(
        w: u16, h: u16,
        index: *const u32, index_len: usize,
        count: *const u8, count_len: usize,
        area: *const u8, area_len: usize,
        con: *const u8, con_len: usize,
        ids: *const u16, ids_len: usize,
        max_region: u16, k: u16, id: u16,
        sizes: *mut f64, sizes_len: usize,
        numbers: *mut u16, numbers_len: usize,
    ) -> u16;

    fn gussetraft_build_rooms(
        w: u16, h: u16,
        index: *const u32, index_len: usize,
        count: *const u8, count_len: usize,
        area: *const u8, area_len: usize,
        con: *const u8, con_len: usize,
        border_size: u16,
        workspace: *mut u16, workspace_len: usize,
        ids: *mut u16, ids_len: usize,
    ) -> RoomAnswer;

    fn gussetraft_load_begin_into(most_cells: u32, most_spans: u32, loader: *mut u32, loader_len: usize) -> LoadAnswer;

    fn gussetraft_load_piece_into(
        piece: *const u8, piece_len: usize,
        index: *mut u32, index_len: usize,
        count: *mut u8, count_len: usize,
        area: *mut u8, area_len: usize,
        con: *mut u8, con_len: usize,
        loader: *mut u32, loader_len: usize,
    ) -> LoadAnswer;

    fn gussetraft_load_end_into(loader: *mut u32, loader_len: usize) -> LoadAnswer;

    fn gussetraft_build_distance_field(
        w: u16, h: u16,
        index: *const u32, index_len: usize,
        count: *const u8, count_len: usize,
        area: *const u8, area_len: usize,
        con: *const u8, con_len: usize,
        raw: *mut u16, raw_len: usize,
        blurred: *mut u16, blurred_len: usize,
    ) -> DistanceAnswer;

    fn gussetraft_build_regions(
        w: u16, h: u16,
        index: *const u32, index_len: usize,
        count: *const u8, count_len: usize,
        area: *const u8, area_len: usize,
        con: *const u8, con_len: usize,
        dist: *const u16, dist_len: usize,
        max_distance: u16,
        border_size: u16, min_region_area: u16, merge_region_area: u16,
        workspace: *mut u16, workspace_len: usize,
        ids: *mut u16, ids_len: usize,
    ) -> RegionAnswer;

    fn gussetraft_build_regions_compared(
        w: u16, h: u16,
        index: *const u32, index_len: usize,
        count: *const u8, count_len: usize,
        area: *const u8, area_len: usize,
        con: *const u8, con_len: usize,
        dist: *const u16, dist_len: usize,
        max_distance: u16,
        border_size: u16, min_region_area: u16, merge_region_area: u16,
        workspace: *mut u16, workspace_len: usize,
        ids: *mut u16, ids_len: usize,
    ) -> RegionAnswer;

    fn gussetraft_mend(
        w: u16, h: u16,
        index: *const u32, index_len: usize,
        count: *const u8, count_len: usize,
        area: *const u8, area_len: usize,
        con: *mut u8, con_len: usize,
        changes: *mut u16, changes_len: usize,
    ) -> MendAnswer;

    fn gussetraft_build_distance_stages(
        w: u16, h: u16,
        index: *const u32, index_len: usize,
        count: *const u8, count_len: usize,
        area: *const u8, area_len: usize,
        con: *const u8, con_len: usize,
        pass1: *mut u16, pass1_len: usize,
        raw: *mut u16, raw_len: usize,
        blurred: *mut u16, blurred_len: usize,
    ) -> DistanceAnswer;

    fn gussetraft_refresh_distance_field_into(
        w: u16, h: u16,
        index: *const u32, index_len: usize,
        count: *const u8, count_len: usize,
        area: *const u8, area_len: usize,
        con: *const u8, con_len: usize,
        x0: u16, z0: u16, x1: u16, z1: u16,
        pass1: *mut u16, pass1_len: usize,
        raw: *mut u16, raw_len: usize,
        blurred: *mut u16, blurred_len: usize,
        answer: *mut u16, answer_len: usize,
    ) -> u16;
}

/// The build of all three lists.
#[rustfmt::skip]
pub fn stages(field: &Field, lists: &mut Stages) -> DistanceAnswer {
    // SAFETY: as below.
    unsafe {
        gussetraft_build_distance_stages(
            field.w, field.h,
            field.index.as_ptr(), field.index.len(),
            field.count.as_ptr(), field.count.len(),
            field.area.as_ptr(), field.area.len(),
            field.con.as_ptr(), field.con.len(),
            lists.pass1.as_mut_ptr(), lists.pass1.len(),
            lists.raw.as_mut_ptr(), lists.raw.len(),
            lists.blurred.as_mut_ptr(), lists.blurred.len(),
        )
    }
}

/// The refresh, its numbers in a lent list.
#[rustfmt::skip]
pub fn refresh(field: &Field, rect: Rect, lists: &mut Stages, answer: &mut [u16]) -> u16 {
    // SAFETY: as below.
    unsafe {
        gussetraft_refresh_distance_field_into(
            field.w, field.h,
            field.index.as_ptr(), field.index.len(),
            field.count.as_ptr(), field.count.len(),
            field.area.as_ptr(), field.area.len(),
            field.con.as_ptr(), field.con.len(),
            rect.x0, rect.z0, rect.x1, rect.z1,
            lists.pass1.as_mut_ptr(), lists.pass1.len(),
            lists.raw.as_mut_ptr(), lists.raw.len(),
            lists.blurred.as_mut_ptr(), lists.blurred.len(),
            answer.as_mut_ptr(), answer.len(),
        )
    }
}

/// The distance entry.
#[rustfmt::skip]
pub fn distances(field: &Field, raw: &mut [u16], blurred: &mut [u16]) -> DistanceAnswer {
    // SAFETY: each pointer goes with the length of its own list, and the lists that are written overlap no other.
    unsafe {
        gussetraft_build_distance_field(
            field.w, field.h,
            field.index.as_ptr(), field.index.len(),
            field.count.as_ptr(), field.count.len(),
            field.area.as_ptr(), field.area.len(),
            field.con.as_ptr(), field.con.len(),
            raw.as_mut_ptr(), raw.len(),
            blurred.as_mut_ptr(), blurred.len(),
        )
    }
}

/// The region entry, in the dense form.
#[rustfmt::skip]
pub fn regions(
    field: &Field,
    distances: &[u16],
    max_distance: u16,
    settings: Settings,
    workspace: &mut [u16],
    ids: &mut [u16],
) -> RegionAnswer {
    // SAFETY: as above.
    unsafe {
        gussetraft_build_regions(
            field.w, field.h,
            field.index.as_ptr(), field.index.len(),
            field.count.as_ptr(), field.count.len(),
            field.area.as_ptr(), field.area.len(),
            field.con.as_ptr(), field.con.len(),
            distances.as_ptr(), distances.len(),
            max_distance,
            settings.border_size, settings.least_area, settings.merge_area,
            workspace.as_mut_ptr(), workspace.len(),
            ids.as_mut_ptr(), ids.len(),
        )
    }
}

/// The region entry in the compared form.
#[rustfmt::skip]
pub fn regions_compared(
    field: &Field,
    distances: &[u16],
    max_distance: u16,
    settings: Settings,
    workspace: &mut [u16],
    ids: &mut [u16],
) -> RegionAnswer {
    // SAFETY: as above.
    unsafe {
        gussetraft_build_regions_compared(
            field.w, field.h,
            field.index.as_ptr(), field.index.len(),
            field.count.as_ptr(), field.count.len(),
            field.area.as_ptr(), field.area.len(),
            field.con.as_ptr(), field.con.len(),
            distances.as_ptr(), distances.len(),
            max_distance,
            settings.border_size, settings.least_area, settings.merge_area,
            workspace.as_mut_ptr(), workspace.len(),
            ids.as_mut_ptr(), ids.len(),
        )
    }
}

/// The mending, with a list of connections in place of the field's own.
#[rustfmt::skip]
pub fn mend(field: &Field, con: &mut [u8], changes: &mut [u16]) -> MendAnswer {
    // SAFETY: as above.
    unsafe {
        gussetraft_mend(
            field.w, field.h,
            field.index.as_ptr(), field.index.len(),
            field.count.as_ptr(), field.count.len(),
            field.area.as_ptr(), field.area.len(),
            con.as_mut_ptr(), con.len(),
            changes.as_mut_ptr(), changes.len(),
        )
    }
}

/// Plain rooms.
#[rustfmt::skip]
pub fn rooms(field: &Field, border_size: u16, workspace: &mut [u16], ids: &mut [u16]) -> RoomAnswer {
    // SAFETY: as above.
    unsafe {
        gussetraft_build_rooms(
            field.w, field.h,
            field.index.as_ptr(), field.index.len(),
            field.count.as_ptr(), field.count.len(),
            field.area.as_ptr(), field.area.len(),
            field.con.as_ptr(), field.con.len(),
            border_size,
            workspace.as_mut_ptr(), workspace.len(),
            ids.as_mut_ptr(), ids.len(),
        )
    }
}

/// A loader before the first byte.
pub fn load_begin(most_cells: u32, most_spans: u32, loader: &mut [u32]) -> LoadAnswer {
    // SAFETY: as above.
    unsafe { gussetraft_load_begin_into(most_cells, most_spans, loader.as_mut_ptr(), loader.len()) }
}

/// A piece of a file.
#[rustfmt::skip]
pub fn load_piece(piece: &[u8], lists: &mut Lists, loader: &mut [u32]) -> LoadAnswer {
    // SAFETY: as above.
    unsafe {
        gussetraft_load_piece_into(
            piece.as_ptr(), piece.len(),
            lists.index.as_mut_ptr(), lists.index.len(),
            lists.count.as_mut_ptr(), lists.count.len(),
            lists.area.as_mut_ptr(), lists.area.len(),
            lists.con.as_mut_ptr(), lists.con.len(),
            loader.as_mut_ptr(), loader.len(),
        )
    }
}

/// The end of a file.
pub fn load_end(loader: &mut [u32]) -> LoadAnswer {
    // SAFETY: as above.
    unsafe { gussetraft_load_end_into(loader.as_mut_ptr(), loader.len()) }
}

#[rustfmt::skip]
unsafe extern "C" {
    fn gussetraft_pack_into(
        file: *const u8, file_len: usize, out: *mut u8, out_len: usize, answer: *mut u64, answer_len: usize,
    ) -> u32;

    fn gussetraft_unpack_into(
        file: *const u8, file_len: usize, out: *mut u8, out_len: usize, answer: *mut u64, answer_len: usize,
    ) -> u32;
}

/// Old to new: what is given, and the answer's numbers.
pub fn pack(file: &[u8], out: &mut [u8]) -> (u32, [u64; 2]) {
    let mut answer = [u64::MAX; 2];
    (pack_with(file, out, &mut answer), answer)
}

/// The same with a list of any length for the numbers.
#[rustfmt::skip]
pub fn pack_with(file: &[u8], out: &mut [u8], answer: &mut [u64]) -> u32 {
    // SAFETY: as above.
    unsafe {
        gussetraft_pack_into(file.as_ptr(), file.len(), out.as_mut_ptr(), out.len(), answer.as_mut_ptr(), answer.len())
    }
}

/// New to old.
#[rustfmt::skip]
pub fn unpack(file: &[u8], out: &mut [u8]) -> (u32, [u64; 2]) {
    let mut answer = [u64::MAX; 2];
    // SAFETY: as above.
    let given = unsafe {
        gussetraft_unpack_into(file.as_ptr(), file.len(), out.as_mut_ptr(), out.len(), answer.as_mut_ptr(), answer.len())
    };
    (given, answer)
}

/// The record of an id, with max_region, k and the id asked for.
#[rustfmt::skip]
pub fn measure(field: &Field, ids: &[u16], asked: [u16; 3], sizes: &mut [f64], numbers: &mut [u16]) -> u16 {
    let [max_region, k, id] = asked;
    // SAFETY: as above.
    unsafe {
        gussetraft_measure_room_into(
            field.w, field.h,
            field.index.as_ptr(), field.index.len(),
            field.count.as_ptr(), field.count.len(),
            field.area.as_ptr(), field.area.len(),
            field.con.as_ptr(), field.con.len(),
            ids.as_ptr(), ids.len(),
            max_region, k, id,
            sizes.as_mut_ptr(), sizes.len(),
            numbers.as_mut_ptr(), numbers.len(),
        )
    }
}

#[rustfmt::skip]
unsafe extern "C" {
    fn gussetraft_id_at_into(file: *const u8, file_len: usize, span: u32, answer: *mut u32, answer_len: usize) -> u32;

    fn gussetraft_id_at_whole_into(file: *const u8, file_len: usize, span: u32, answer: *mut u32, answer_len: usize) -> u32;
}

/// One span's id by way of the kind 7 records: what is given, and the answer's numbers.
#[rustfmt::skip]
pub fn id_at(file: &[u8], span: u32) -> (u32, [u32; 3]) {
    let mut answer = [u32::MAX; 3];
    // SAFETY: as above.
    let given = unsafe { gussetraft_id_at_into(file.as_ptr(), file.len(), span, answer.as_mut_ptr(), answer.len()) };
    (given, answer)
}

/// The full reader.
#[rustfmt::skip]
pub fn id_at_whole(file: &[u8], span: u32) -> (u32, [u32; 3]) {
    let mut answer = [u32::MAX; 3];
    // SAFETY: as above.
    let given = unsafe { gussetraft_id_at_whole_into(file.as_ptr(), file.len(), span, answer.as_mut_ptr(), answer.len()) };
    (given, answer)
}

#[rustfmt::skip]
unsafe extern "C" {
    fn gussetraft_explain_span_into(
        w: u16, h: u16,
        index: *const u32, index_len: usize,
        count: *const u8, count_len: usize,
        area: *const u8, area_len: usize,
        con: *const u8, con_len: usize,
        dist: *const u16, dist_len: usize,
        max_distance: u16,
        border_size: u16, min_region_area: u16, merge_region_area: u16,
        workspace: *mut u16, workspace_len: usize,
        span: u32,
        trail: *mut u16, trail_len: usize,
        answer: *mut u16, answer_len: usize,
    ) -> u16;
}

/// Why a span has its number, or none: what is given; the trail and the answer's numbers are in lent lists.
#[rustfmt::skip]
#[expect(clippy::too_many_arguments, reason = "as the function has them")]
pub fn explain(
    field: &Field,
    distances: &[u16],
    max_distance: u16,
    settings: Settings,
    workspace: &mut [u16],
    span: u32,
    trail: &mut [u16],
    answer: &mut [u16],
) -> u16 {
    // SAFETY: as above.
    unsafe {
        gussetraft_explain_span_into(
            field.w, field.h,
            field.index.as_ptr(), field.index.len(),
            field.count.as_ptr(), field.count.len(),
            field.area.as_ptr(), field.area.len(),
            field.con.as_ptr(), field.con.len(),
            distances.as_ptr(), distances.len(),
            max_distance,
            settings.border_size, settings.least_area, settings.merge_area,
            workspace.as_mut_ptr(), workspace.len(),
            span,
            trail.as_mut_ptr(), trail.len(),
            answer.as_mut_ptr(), answer.len(),
        )
    }
}
