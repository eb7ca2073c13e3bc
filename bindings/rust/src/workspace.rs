//! A workspace that is kept from call to call. Needs the feature `alloc`.

use crate::workspace_len;
use alloc::vec::Vec;

/// The numbers that [`build_regions`](crate::build_regions), [`build_rooms`](crate::build_rooms) and [`explain_span`](crate::explain_span) work in, made once for
/// the largest field so far. A call takes about half of the time that it takes with memory fresh from the system (docs/PERFORMANCE.md). One serves one thread
/// at a time.
///
/// ```
/// use gussetraft::{build_rooms, workspace::Workspace, Field, Refusal, NO_CONNECTION};
///
/// let mut workspace = Workspace::new(); // keep it for the next field
/// let con = [NO_CONNECTION; 8];
/// let field = Field { w: 2, h: 1, index: &[0, 1], count: &[1, 1], area: &[1, 1], con: &con };
/// let mut ids = [0; 2];
/// let rooms = build_rooms(&field, 0, workspace.lend(2), &mut ids)?;
/// assert_eq!((rooms, ids), (2, [1, 2]));
/// # Ok::<(), Refusal>(())
/// ```
#[derive(Debug, Default)]
pub struct Workspace {
    numbers: Vec<u16>,
}

impl Workspace {
    /// One that has no memory yet.
    #[must_use]
    pub const fn new() -> Self {
        Self { numbers: Vec::new() }
    }

    /// As many numbers as a field of n spans needs, and no more: a call leaves zeros in all that it is lent. For more than 65,000 spans, which are refused,
    /// it is what 65,000 need.
    pub fn lend(&mut self, n: usize) -> &mut [u16] {
        let len = workspace_len(n.min(65_000));
        if self.numbers.len() < len {
            self.numbers.resize(len, 0);
        }
        &mut self.numbers[..len]
    }
}

#[cfg(test)]
mod tests {
    use super::Workspace;
    use crate::workspace_len;

    #[test]
    fn it_grows_and_is_kept() {
        let mut workspace = Workspace::new();
        assert_eq!(workspace.lend(3).len(), workspace_len(3));
        workspace.lend(3)[0] = 7;
        assert_eq!(workspace.lend(10).len(), workspace_len(10));
        assert_eq!(workspace.lend(10)[0], 7);
        assert_eq!(workspace.lend(2).len(), workspace_len(2));
        assert_eq!(workspace.lend(usize::MAX).len(), workspace_len(65_000));
    }
}
