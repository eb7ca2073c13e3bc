//! One thing wrong in a call, mostly so that it is refused.

use crate::calls::Call;
use oracle::rng::Rng;

/// What can be wrong, by number.
pub const FAULTS: usize = 20;

/// Puts a fault into the call. Some faults need a list that is not empty and otherwise change nothing.
pub fn put(call: &mut Call, fault: usize, rng: &mut Rng) {
    let n = call.field.spans();
    let field = &mut call.field;
    match fault {
        0 => field.w = rng.pick(&[0, 257, 300, 65_535]),
        1 => field.h = rng.pick(&[0, 257, 300, 65_535]),
        2 => {
            let more = rng.pick(&[65_001, 65_535, 65_536 + n]);
            field.area.resize(more, 1);
        }
        3 => field.index.resize(near(field.index.len(), rng), 0),
        4 => field.count.resize(near(field.count.len(), rng), 0),
        5 => field.area.resize(near(n, rng), 1),
        6 => field.con.resize(near(field.con.len(), rng), 255),
        7 => call.raw_len = near(n, rng),
        8 => call.blurred_len = near(n, rng),
        9 => call.distances.resize(near(n, rng), 0),
        10 => call.ids_len = near(n, rng),
        11 | 12 => {
            // a fault before this one may have left less than is taken away
            let len = call.workspace_len;
            let (one_short, far_short) = (len.saturating_sub(1), len.saturating_sub(n.min(4_096)));
            call.workspace_len = rng.pick(&[one_short, far_short, len / 2, 1, 0]);
        }
        13 => call.max_distance = rng.pick(&[511, 512, 1_000, 65_535]),
        14 => {
            if let Some(distance) = any(&mut call.distances, rng) {
                let above = usize::from(call.max_distance) + 1;
                *distance = rng.within(above..=above + 1) as u16;
            }
        }
        15 => {
            if let Some(index) = any(&mut field.index, rng) {
                *index = rng.pick(&[index.wrapping_add(1), index.wrapping_sub(1), 0, u32::MAX]);
            }
        }
        16 => {
            if let Some(count) = any(&mut field.count, rng) {
                *count = rng.pick(&[count.wrapping_add(1), count.wrapping_sub(1), 64, 255]);
            }
        }
        17 | 18 => {
            if let Some(con) = any(&mut field.con, rng) {
                *con = rng.pick(&[0, 1, 62, 63, 254, 255]);
            }
        }
        _ => {
            // a side that leads somewhere leads nowhere
            let joined: Vec<_> = (0..field.con.len())
                .filter(|&place| field.con[place] != 255)
                .collect();
            if !joined.is_empty() {
                field.con[rng.pick(&joined)] = 255;
            }
        }
    }
}

/// Another length than this one, mostly.
fn near(len: usize, rng: &mut Rng) -> usize {
    rng.pick(&[len + 1, len.saturating_sub(1), len / 2, 0])
}

fn any<'a, T>(list: &'a mut [T], rng: &mut Rng) -> Option<&'a mut T> {
    let last = list.len().checked_sub(1)?;
    let place = rng.within(0..=last);
    list.get_mut(place)
}
