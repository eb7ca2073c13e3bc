//! Lists to lend for writing.

/// So many numbers on either side of a list are not lent.
const SIDE: usize = 32;

/// A list that holds no answer before the call, and lies among numbers that no call may touch.
pub struct Lent {
    all: Vec<u16>,
}

/// What a list holds at a place before the call; seldom what an answer has there, and never 0 for long.
fn before(place: usize) -> u16 {
    (place * 40_503 + 7) as u16
}

impl Lent {
    /// A list of so many numbers.
    pub fn new(len: usize) -> Self {
        Self {
            all: (0..len + 2 * SIDE).map(before).collect(),
        }
    }

    /// The list, to be lent.
    pub fn lend(&mut self) -> &mut [u16] {
        let end = self.all.len() - SIDE;
        &mut self.all[SIDE..end]
    }

    /// What differs after a call that was to write these numbers.
    pub fn holds(&self, name: &str, expected: &[u16]) -> Result<(), String> {
        let end = self.all.len() - SIDE;
        self.sides_are_kept(name)?;
        first_other(&self.all[SIDE..end], |place| expected[place])
            .map_or(Ok(()), |told| Err(format!("{name} {told}")))
    }

    /// What differs after a call that was to write zeros.
    pub fn holds_zeros(&self, name: &str) -> Result<(), String> {
        let end = self.all.len() - SIDE;
        self.sides_are_kept(name)?;
        first_other(&self.all[SIDE..end], |_| 0)
            .map_or(Ok(()), |told| Err(format!("{name} {told}")))
    }

    /// What differs after a call that was to write nothing.
    pub fn is_kept(&self, name: &str) -> Result<(), String> {
        let end = self.all.len() - SIDE;
        self.sides_are_kept(name)?;
        first_other(&self.all[SIDE..end], |place| before(SIDE + place)).map_or(Ok(()), |told| {
            Err(format!("{name} of a refused call was changed: it {told}"))
        })
    }

    fn sides_are_kept(&self, name: &str) -> Result<(), String> {
        let end = self.all.len() - SIDE;
        let is_kept = |place: usize| self.all[place] == before(place);
        if (0..SIDE).all(is_kept) && (end..end + SIDE).all(is_kept) {
            Ok(())
        } else {
            Err(format!("numbers beside {name} were changed"))
        }
    }
}

fn first_other(found: &[u16], expected: impl Fn(usize) -> u16) -> Option<String> {
    let place = (0..found.len()).find(|&place| found[place] != expected(place))?;
    let (found, expected) = (found[place], expected(place));
    Some(format!("has {found} at {place}, not {expected}"))
}
