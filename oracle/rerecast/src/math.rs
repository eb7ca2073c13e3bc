//! The direction offsets.

/// The step in x of a direction.
pub(crate) fn dir_offset_x(dir: u8) -> i8 {
    [-1, 0, 1, 0][dir as usize]
}

/// The step in z of a direction.
pub(crate) fn dir_offset_z(dir: u8) -> i8 {
    [0, 1, 0, -1][dir as usize]
}
