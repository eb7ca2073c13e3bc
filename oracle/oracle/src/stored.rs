//! Stored results, requests A9 and A10, written from document 02's words alone.

use std::fmt;

/// The reasons to refuse a stored result, by their numbers.
#[derive(Debug, Clone, Copy, PartialEq, Eq)]
pub enum Refusal {
    /// "22 malformed".
    Malformed = 22,
    /// "23 not the longest runs".
    NotLongest = 23,
    /// "24 no room".
    NoRoom = 24,
    /// "25 wrong number".
    WrongNumber = 25,
    /// "26 span beyond the end".
    Beyond = 26,
}

impl fmt::Display for Refusal {
    fn fmt(&self, f: &mut fmt::Formatter) -> fmt::Result {
        write!(f, "refused {}", *self as u8)
    }
}

/// The greatest length of a run.
pub const MOST: u16 = 65_535;

/// The runs of a stretch.
pub const STRETCH: usize = 64;

/// Equal ids one after the other.
#[derive(Debug, Clone, Copy, PartialEq, Eq)]
pub struct Run {
    /// Their id.
    pub id: u16,
    /// How many.
    pub length: u16,
}

/// "one record a span (kind 5: id, 2 bytes) with the end record".
pub fn old_form(ids: &[u16]) -> Vec<u8> {
    let mut bytes = Vec::new();
    for id in ids {
        bytes.push(5);
        bytes.extend(id.to_le_bytes());
    }
    bytes.push(4);
    bytes
}

/// "runs in span order: kind 6, id and length, 2 bytes each".
pub fn new_form(runs: &[Run]) -> Vec<u8> {
    let mut bytes = Vec::new();
    let mut spans: u32 = 0;
    for (number, run) in runs.iter().enumerate() {
        bytes.push(6);
        bytes.extend(run.id.to_le_bytes());
        bytes.extend(run.length.to_le_bytes());
        spans += u32::from(run.length);
        // "After every 64 runs the new form carries a kind 7 record with the number of spans so far (4 bytes)"
        if number % STRETCH == STRETCH - 1 {
            bytes.push(7);
            bytes.extend(spans.to_le_bytes());
        }
    }
    bytes.push(4);
    bytes
}

/// "every run as long as equal ids and that limit allow".
pub fn runs_of(ids: &[u16]) -> Vec<Run> {
    let mut runs = Vec::new();
    for equal in ids.chunk_by(|a, b| a == b) {
        for part in equal.chunks(usize::from(MOST)) {
            runs.push(Run {
                id: part[0],
                length: part.len() as u16,
            });
        }
    }
    runs
}

/// Old to new, for a list of so many bytes.
pub fn pack(file: &[u8], room: usize) -> Result<Vec<u8>, Refusal> {
    let mut ids = Vec::new();
    let mut records = Records { file };
    while let Some(body) = records.next(5, 2)? {
        ids.push(number(body));
    }
    fitting(new_form(&runs_of(&ids)), room)
}

/// A full read: the runs of a file of the new form.
pub fn read(file: &[u8]) -> Result<Vec<Run>, Refusal> {
    let mut runs: Vec<Run> = Vec::new();
    let mut records = Records { file };
    let (mut spans, mut wrong) = (0u64, false);
    let mut since = 0;
    loop {
        if since == STRETCH {
            // "a missing or misplaced one, or a span count that doesn't fit 4 bytes, is malformed"
            let body = records.next(7, 4)?.ok_or(Refusal::Malformed)?;
            let counted = u32::try_from(spans).map_err(|_| Refusal::Malformed)?;
            wrong |= body != counted.to_le_bytes();
            since = 0;
            continue;
        }
        let Some(body) = records.next(6, 4)? else {
            break;
        };
        let (id, length) = body.split_at(2);
        if number(length) == 0 {
            return Err(Refusal::Malformed);
        }
        spans += u64::from(number(length));
        since += 1;
        runs.push(Run {
            id: number(id),
            length: number(length),
        });
    }
    for pair in runs.windows(2) {
        if pair[0].id == pair[1].id && pair[0].length < MOST {
            return Err(Refusal::NotLongest);
        }
    }
    // "25 wrong number, between 23 and 24"
    if wrong {
        return Err(Refusal::WrongNumber);
    }
    Ok(runs)
}

/// The full reader: a span's id and stretch, or the refusal and the stretch.
pub fn id_at_whole(file: &[u8], span: u32) -> (Result<u16, Refusal>, u32) {
    let runs = match read(file) {
        Ok(runs) => runs,
        Err(refusal) => return (Err(refusal), 0),
    };
    let mut before = 0u64;
    for (number, run) in runs.iter().enumerate() {
        before += u64::from(run.length);
        if u64::from(span) < before {
            return (Ok(run.id), (number / STRETCH) as u32);
        }
    }
    (Err(Refusal::Beyond), (runs.len() / STRETCH) as u32)
}

/// New to old, for a list of so many bytes.
pub fn unpack(file: &[u8], room: usize) -> Result<Vec<u8>, Refusal> {
    let runs = read(file)?;
    let spans: usize = runs.iter().map(|run| usize::from(run.length)).sum();
    if 3 * spans + 1 > room {
        return Err(Refusal::NoRoom);
    }
    let ids: Vec<u16> = runs
        .iter()
        .flat_map(|run| vec![run.id; usize::from(run.length)])
        .collect();
    fitting(old_form(&ids), room)
}

/// "exactly when the output would exceed the list lent".
fn fitting(output: Vec<u8>, room: usize) -> Result<Vec<u8>, Refusal> {
    if output.len() > room {
        return Err(Refusal::NoRoom);
    }
    Ok(output)
}

fn number(bytes: &[u8]) -> u16 {
    u16::from_le_bytes([bytes[0], bytes[1]])
}

/// What is left of a file.
struct Records<'a> {
    file: &'a [u8],
}

impl<'a> Records<'a> {
    /// The body of the next record, of that kind and so long, or none at the end record, after which nothing stands.
    fn next(&mut self, kind: u8, len: usize) -> Result<Option<&'a [u8]>, Refusal> {
        match self.file {
            [4] => Ok(None),
            [first, rest @ ..] if *first == kind && rest.len() >= len => {
                let (body, rest) = rest.split_at(len);
                self.file = rest;
                Ok(Some(body))
            }
            _ => Err(Refusal::Malformed),
        }
    }
}

#[cfg(test)]
mod tests {
    use super::{MOST, Refusal, Run, id_at_whole, new_form, old_form, pack, read, runs_of, unpack};

    const ALL: usize = usize::MAX;

    #[test]
    fn a_run_and_a_span() {
        let old = old_form(&[7, 7, 7, 258]);
        assert_eq!(old, [5, 7, 0, 5, 7, 0, 5, 7, 0, 5, 2, 1, 4]);
        let new = pack(&old, ALL).unwrap();
        assert_eq!(new, [6, 7, 0, 3, 0, 6, 2, 1, 1, 0, 4]);
        assert_eq!(unpack(&new, ALL), Ok(old));
    }

    #[test]
    fn no_spans() {
        assert_eq!(pack(&[4], 1), Ok(vec![4]));
        assert_eq!(pack(&[4], 0), Err(Refusal::NoRoom));
        assert_eq!(unpack(&[4], 1), Ok(vec![4]));
    }

    #[test]
    fn runs_at_the_limit() {
        let most = usize::from(MOST);
        for (spans, lengths) in [
            (most, vec![MOST]),
            (most + 1, vec![MOST, 1]),
            (2 * most, vec![MOST, MOST]),
        ] {
            let found: Vec<u16> = runs_of(&vec![3; spans])
                .iter()
                .map(|run| run.length)
                .collect();
            assert_eq!(found, lengths);
        }
    }

    #[test]
    fn refusals() {
        for file in [
            &[][..],
            &[5, 1, 0],
            &[5, 1],
            &[5],
            &[4, 4],
            &[9, 1, 0, 4],
            &[6, 1, 0, 1, 0, 4],
        ] {
            assert_eq!(pack(file, ALL), Err(Refusal::Malformed));
        }
        assert_eq!(unpack(&[6, 1, 0, 0, 0, 4], ALL), Err(Refusal::Malformed));
        assert_eq!(unpack(&[5, 1, 0, 4], ALL), Err(Refusal::Malformed));
        let run = |id, length| Run { id, length };
        let split = new_form(&[run(1, 2), run(1, 3)]);
        assert_eq!(unpack(&split, ALL), Err(Refusal::NotLongest));
        assert_eq!(unpack(&split, 0), Err(Refusal::NotLongest));
        let full = new_form(&[run(1, MOST), run(1, 3)]);
        assert_eq!(unpack(&full, 0), Err(Refusal::NoRoom));
        let unended = &split[..split.len() - 1];
        assert_eq!(unpack(unended, ALL), Err(Refusal::Malformed));
    }

    #[test]
    fn stretches() {
        let run = |id| Run { id, length: 2 };
        let runs: Vec<Run> = (0..130).map(run).collect();
        let file = new_form(&runs);
        assert_eq!(file.len(), 5 * 132 + 1);
        assert_eq!(file[320..325], [7, 128, 0, 0, 0]);
        assert_eq!(id_at_whole(&file, 128), (Ok(64), 1));
        assert_eq!(id_at_whole(&file, 259), (Ok(129), 2));
        assert_eq!(id_at_whole(&file, 260), (Err(Refusal::Beyond), 2));
        let mut wrong = file.clone();
        wrong[321] ^= 1;
        assert_eq!(read(&wrong), Err(Refusal::WrongNumber));
        wrong[320] = 6;
        assert_eq!(read(&wrong), Err(Refusal::Malformed));
        let ends = new_form(&runs[..64]);
        assert_eq!(ends.len(), 326);
        assert_eq!(read(&ends), Ok(runs[..64].to_vec()));
    }
}
