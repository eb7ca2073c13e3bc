//! The functions of libgussetraft.a (include/gussetraft.h). A slice is passed as a pointer and a number of elements.

use crate::{Field, Sizes};

#[repr(C)]
pub struct DistanceAnswer {
    pub refusal: u16,
    pub max_distance: u16,
}

#[repr(C)]
pub struct RegionAnswer {
    pub refusal: u16,
    pub max_region: u16,
    pub overlaps: u16,
    pub cut: u16,
}

#[repr(C)]
pub struct MendAnswer {
    pub refusal: u32,
    pub count: u32,
}

#[repr(C)]
pub struct RoomAnswer {
    pub refusal: u16,
    pub max_region: u16,
}

#[repr(C)]
pub struct LoadAnswer {
    pub refusal: u32,
    pub position: u32,
}

/// How many numbers a loader has.
pub const LOADER_LEN: usize = 17;

extern "C" {
    fn gussetraft_measure_room_into(
        w: u16,
        h: u16,
        index: *const u32,
        index_len: usize,
        count: *const u8,
        count_len: usize,
        area: *const u8,
        area_len: usize,
        con: *const u8,
        con_len: usize,
        ids: *const u16,
        ids_len: usize,
        max_region: u16,
        k: u16,
        id: u16,
        sizes: *mut f64,
        sizes_len: usize,
        numbers: *mut u16,
        numbers_len: usize,
    ) -> u16;

    fn gussetraft_build_rooms(
        w: u16,
        h: u16,
        index: *const u32,
        index_len: usize,
        count: *const u8,
        count_len: usize,
        area: *const u8,
        area_len: usize,
        con: *const u8,
        con_len: usize,
        border_size: u16,
        workspace: *mut u16,
        workspace_len: usize,
        ids: *mut u16,
        ids_len: usize,
    ) -> RoomAnswer;

    fn gussetraft_load_begin_into(
        most_cells: u32,
        most_spans: u32,
        loader: *mut u32,
        loader_len: usize,
    ) -> LoadAnswer;

    fn gussetraft_load_piece_into(
        piece: *const u8,
        piece_len: usize,
        index: *mut u32,
        index_len: usize,
        count: *mut u8,
        count_len: usize,
        area: *mut u8,
        area_len: usize,
        con: *mut u8,
        con_len: usize,
        loader: *mut u32,
        loader_len: usize,
    ) -> LoadAnswer;

    fn gussetraft_load_end_into(loader: *mut u32, loader_len: usize) -> LoadAnswer;

    fn gussetraft_build_distance_field(
        w: u16,
        h: u16,
        index: *const u32,
        index_len: usize,
        count: *const u8,
        count_len: usize,
        area: *const u8,
        area_len: usize,
        con: *const u8,
        con_len: usize,
        raw: *mut u16,
        raw_len: usize,
        blurred: *mut u16,
        blurred_len: usize,
    ) -> DistanceAnswer;

    fn gussetraft_build_regions(
        w: u16,
        h: u16,
        index: *const u32,
        index_len: usize,
        count: *const u8,
        count_len: usize,
        area: *const u8,
        area_len: usize,
        con: *const u8,
        con_len: usize,
        distances: *const u16,
        distances_len: usize,
        max_distance: u16,
        border_size: u16,
        min_region_area: u16,
        merge_region_area: u16,
        workspace: *mut u16,
        workspace_len: usize,
        ids: *mut u16,
        ids_len: usize,
    ) -> RegionAnswer;

    fn gussetraft_build_regions_compared(
        w: u16,
        h: u16,
        index: *const u32,
        index_len: usize,
        count: *const u8,
        count_len: usize,
        area: *const u8,
        area_len: usize,
        con: *const u8,
        con_len: usize,
        distances: *const u16,
        distances_len: usize,
        max_distance: u16,
        border_size: u16,
        min_region_area: u16,
        merge_region_area: u16,
        workspace: *mut u16,
        workspace_len: usize,
        ids: *mut u16,
        ids_len: usize,
    ) -> RegionAnswer;

    fn gussetraft_build_distance_stages(
        w: u16,
        h: u16,
        index: *const u32,
        index_len: usize,
        count: *const u8,
        count_len: usize,
        area: *const u8,
        area_len: usize,
        con: *const u8,
        con_len: usize,
        pass1: *mut u16,
        pass1_len: usize,
        raw: *mut u16,
        raw_len: usize,
        blurred: *mut u16,
        blurred_len: usize,
    ) -> DistanceAnswer;

    fn gussetraft_refresh_distance_field_into(
        w: u16,
        h: u16,
        index: *const u32,
        index_len: usize,
        count: *const u8,
        count_len: usize,
        area: *const u8,
        area_len: usize,
        con: *const u8,
        con_len: usize,
        x0: u16,
        z0: u16,
        x1: u16,
        z1: u16,
        pass1: *mut u16,
        pass1_len: usize,
        raw: *mut u16,
        raw_len: usize,
        blurred: *mut u16,
        blurred_len: usize,
        answer: *mut u16,
        answer_len: usize,
    ) -> u16;

    fn gussetraft_mend(
        w: u16,
        h: u16,
        index: *const u32,
        index_len: usize,
        count: *const u8,
        count_len: usize,
        area: *const u8,
        area_len: usize,
        con: *mut u8,
        con_len: usize,
        changes: *mut u16,
        changes_len: usize,
    ) -> MendAnswer;
}

pub fn distance_field(field: &Field<'_>, raw: &mut [u16], blurred: &mut [u16]) -> DistanceAnswer {
    // SAFETY: each pointer goes with the length of its own slice, which is all that the function reads or writes, whatever the
    // lists hold (that is proved); the borrows last as long as the call, and it keeps none of them.
    unsafe {
        gussetraft_build_distance_field(
            field.w,
            field.h,
            field.index.as_ptr(),
            field.index.len(),
            field.count.as_ptr(),
            field.count.len(),
            field.area.as_ptr(),
            field.area.len(),
            field.con.as_ptr(),
            field.con.len(),
            raw.as_mut_ptr(),
            raw.len(),
            blurred.as_mut_ptr(),
            blurred.len(),
        )
    }
}

pub fn regions(
    field: &Field<'_>,
    distances: &[u16],
    max_distance: u16,
    sizes: &Sizes,
    workspace: &mut [u16],
    ids: &mut [u16],
) -> RegionAnswer {
    // SAFETY: as above.
    unsafe {
        gussetraft_build_regions(
            field.w,
            field.h,
            field.index.as_ptr(),
            field.index.len(),
            field.count.as_ptr(),
            field.count.len(),
            field.area.as_ptr(),
            field.area.len(),
            field.con.as_ptr(),
            field.con.len(),
            distances.as_ptr(),
            distances.len(),
            max_distance,
            sizes.border_size,
            sizes.min_region_area,
            sizes.merge_region_area,
            workspace.as_mut_ptr(),
            workspace.len(),
            ids.as_mut_ptr(),
            ids.len(),
        )
    }
}

pub fn regions_compared(
    field: &Field<'_>,
    distances: &[u16],
    max_distance: u16,
    sizes: &Sizes,
    workspace: &mut [u16],
    ids: &mut [u16],
) -> RegionAnswer {
    // SAFETY: as above.
    unsafe {
        gussetraft_build_regions_compared(
            field.w,
            field.h,
            field.index.as_ptr(),
            field.index.len(),
            field.count.as_ptr(),
            field.count.len(),
            field.area.as_ptr(),
            field.area.len(),
            field.con.as_ptr(),
            field.con.len(),
            distances.as_ptr(),
            distances.len(),
            max_distance,
            sizes.border_size,
            sizes.min_region_area,
            sizes.merge_region_area,
            workspace.as_mut_ptr(),
            workspace.len(),
            ids.as_mut_ptr(),
            ids.len(),
        )
    }
}

pub fn mend(
    (w, h): (u16, u16),
    index: &[u32],
    count: &[u8],
    area: &[u8],
    con: &mut [u8],
    changes: &mut [u16],
) -> MendAnswer {
    // SAFETY: as above.
    unsafe {
        gussetraft_mend(
            w,
            h,
            index.as_ptr(),
            index.len(),
            count.as_ptr(),
            count.len(),
            area.as_ptr(),
            area.len(),
            con.as_mut_ptr(),
            con.len(),
            changes.as_mut_ptr(),
            changes.len(),
        )
    }
}

pub fn distance_stages(
    field: &Field<'_>,
    pass1: &mut [u16],
    raw: &mut [u16],
    blurred: &mut [u16],
) -> DistanceAnswer {
    // SAFETY: as above.
    unsafe {
        gussetraft_build_distance_stages(
            field.w,
            field.h,
            field.index.as_ptr(),
            field.index.len(),
            field.count.as_ptr(),
            field.count.len(),
            field.area.as_ptr(),
            field.area.len(),
            field.con.as_ptr(),
            field.con.len(),
            pass1.as_mut_ptr(),
            pass1.len(),
            raw.as_mut_ptr(),
            raw.len(),
            blurred.as_mut_ptr(),
            blurred.len(),
        )
    }
}

pub fn refresh(
    field: &Field<'_>,
    [x0, z0, x1, z1]: [u16; 4],
    pass1: &mut [u16],
    raw: &mut [u16],
    blurred: &mut [u16],
) -> [u16; 8] {
    let mut answer = [0; 8];
    // SAFETY: as above.
    unsafe {
        gussetraft_refresh_distance_field_into(
            field.w,
            field.h,
            field.index.as_ptr(),
            field.index.len(),
            field.count.as_ptr(),
            field.count.len(),
            field.area.as_ptr(),
            field.area.len(),
            field.con.as_ptr(),
            field.con.len(),
            x0,
            z0,
            x1,
            z1,
            pass1.as_mut_ptr(),
            pass1.len(),
            raw.as_mut_ptr(),
            raw.len(),
            blurred.as_mut_ptr(),
            blurred.len(),
            answer.as_mut_ptr(),
            answer.len(),
        );
    }
    answer
}

pub fn rooms(
    field: &Field<'_>,
    border_size: u16,
    workspace: &mut [u16],
    ids: &mut [u16],
) -> RoomAnswer {
    // SAFETY: as above.
    unsafe {
        gussetraft_build_rooms(
            field.w,
            field.h,
            field.index.as_ptr(),
            field.index.len(),
            field.count.as_ptr(),
            field.count.len(),
            field.area.as_ptr(),
            field.area.len(),
            field.con.as_ptr(),
            field.con.len(),
            border_size,
            workspace.as_mut_ptr(),
            workspace.len(),
            ids.as_mut_ptr(),
            ids.len(),
        )
    }
}

pub fn load_begin(most_cells: u32, most_spans: u32, loader: &mut [u32; LOADER_LEN]) -> LoadAnswer {
    // SAFETY: as above.
    unsafe { gussetraft_load_begin_into(most_cells, most_spans, loader.as_mut_ptr(), loader.len()) }
}

pub fn load_piece(
    piece: &[u8],
    index: &mut [u32],
    count: &mut [u8],
    area: &mut [u8],
    con: &mut [u8],
    loader: &mut [u32; LOADER_LEN],
) -> LoadAnswer {
    // SAFETY: as above.
    unsafe {
        gussetraft_load_piece_into(
            piece.as_ptr(),
            piece.len(),
            index.as_mut_ptr(),
            index.len(),
            count.as_mut_ptr(),
            count.len(),
            area.as_mut_ptr(),
            area.len(),
            con.as_mut_ptr(),
            con.len(),
            loader.as_mut_ptr(),
            loader.len(),
        )
    }
}

pub fn load_end(loader: &mut [u32; LOADER_LEN]) -> LoadAnswer {
    // SAFETY: as above.
    unsafe { gussetraft_load_end_into(loader.as_mut_ptr(), loader.len()) }
}

extern "C" {
    fn gussetraft_pack_into(
        file: *const u8,
        file_len: usize,
        out: *mut u8,
        out_len: usize,
        answer: *mut u64,
        answer_len: usize,
    ) -> u32;

    fn gussetraft_unpack_into(
        file: *const u8,
        file_len: usize,
        out: *mut u8,
        out_len: usize,
        answer: *mut u64,
        answer_len: usize,
    ) -> u32;
}

pub fn pack(file: &[u8], out: &mut [u8]) -> [u64; 2] {
    let mut answer = [0; 2];
    // SAFETY: as above.
    unsafe {
        gussetraft_pack_into(
            file.as_ptr(),
            file.len(),
            out.as_mut_ptr(),
            out.len(),
            answer.as_mut_ptr(),
            answer.len(),
        );
    }
    answer
}

pub fn unpack(file: &[u8], out: &mut [u8]) -> [u64; 2] {
    let mut answer = [0; 2];
    // SAFETY: as above.
    unsafe {
        gussetraft_unpack_into(
            file.as_ptr(),
            file.len(),
            out.as_mut_ptr(),
            out.len(),
            answer.as_mut_ptr(),
            answer.len(),
        );
    }
    answer
}

pub fn measure(
    field: &Field<'_>,
    ids: &[u16],
    [max_region, k, id]: [u16; 3],
) -> ([f64; 5], [u16; 3]) {
    let (mut sizes, mut numbers) = ([0.0; 5], [0; 3]);
    // SAFETY: as above.
    unsafe {
        gussetraft_measure_room_into(
            field.w,
            field.h,
            field.index.as_ptr(),
            field.index.len(),
            field.count.as_ptr(),
            field.count.len(),
            field.area.as_ptr(),
            field.area.len(),
            field.con.as_ptr(),
            field.con.len(),
            ids.as_ptr(),
            ids.len(),
            max_region,
            k,
            id,
            sizes.as_mut_ptr(),
            sizes.len(),
            numbers.as_mut_ptr(),
            numbers.len(),
        );
    }
    (sizes, numbers)
}

extern "C" {
    fn gussetraft_id_at_into(
        file: *const u8,
        file_len: usize,
        span: u32,
        answer: *mut u32,
        answer_len: usize,
    ) -> u32;

    fn gussetraft_id_at_whole_into(
        file: *const u8,
        file_len: usize,
        span: u32,
        answer: *mut u32,
        answer_len: usize,
    ) -> u32;
}

pub fn id_at(file: &[u8], span: u32) -> [u32; 3] {
    let mut answer = [0; 3];
    // SAFETY: as above.
    unsafe {
        gussetraft_id_at_into(
            file.as_ptr(),
            file.len(),
            span,
            answer.as_mut_ptr(),
            answer.len(),
        );
    }
    answer
}

pub fn id_at_whole(file: &[u8], span: u32) -> [u32; 3] {
    let mut answer = [0; 3];
    // SAFETY: as above.
    unsafe {
        gussetraft_id_at_whole_into(
            file.as_ptr(),
            file.len(),
            span,
            answer.as_mut_ptr(),
            answer.len(),
        );
    }
    answer
}

extern "C" {
    fn gussetraft_explain_span_into(
        w: u16,
        h: u16,
        index: *const u32,
        index_len: usize,
        count: *const u8,
        count_len: usize,
        area: *const u8,
        area_len: usize,
        con: *const u8,
        con_len: usize,
        distances: *const u16,
        distances_len: usize,
        max_distance: u16,
        border_size: u16,
        min_region_area: u16,
        merge_region_area: u16,
        workspace: *mut u16,
        workspace_len: usize,
        span: u32,
        trail: *mut u16,
        trail_len: usize,
        answer: *mut u16,
        answer_len: usize,
    ) -> u16;
}

/// The answer's eleven numbers, the refusal first.
pub fn explain(
    field: &Field<'_>,
    distances: &[u16],
    max_distance: u16,
    sizes: &Sizes,
    workspace: &mut [u16],
    span: u32,
    trail: &mut [u16],
) -> [u16; 11] {
    let mut answer = [0; 11];
    // SAFETY: as above.
    unsafe {
        gussetraft_explain_span_into(
            field.w,
            field.h,
            field.index.as_ptr(),
            field.index.len(),
            field.count.as_ptr(),
            field.count.len(),
            field.area.as_ptr(),
            field.area.len(),
            field.con.as_ptr(),
            field.con.len(),
            distances.as_ptr(),
            distances.len(),
            max_distance,
            sizes.border_size,
            sizes.min_region_area,
            sizes.merge_region_area,
            workspace.as_mut_ptr(),
            workspace.len(),
            span,
            trail.as_mut_ptr(),
            trail.len(),
            answer.as_mut_ptr(),
            answer.len(),
        )
    };
    answer
}
