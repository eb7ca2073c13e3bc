//! Batch files: fields one after the other, each a 4-byte little-endian length and the bytes of the field file.

/// The batch of files.
pub fn pack(files: &[Vec<u8>]) -> Vec<u8> {
    let mut batch = Vec::new();
    for file in files {
        batch.extend((file.len() as u32).to_le_bytes());
        batch.extend(file);
    }
    batch
}

/// The files of a batch, unless it is cut short.
pub fn unpack(mut batch: &[u8]) -> Option<Vec<Vec<u8>>> {
    let mut files = Vec::new();
    while !batch.is_empty() {
        let (&length, rest) = batch.split_first_chunk()?;
        let (file, rest) = rest.split_at_checked(u32::from_le_bytes(length) as usize)?;
        files.push(file.to_vec());
        batch = rest;
    }
    Some(files)
}

#[cfg(test)]
mod tests {
    use super::{pack, unpack};

    #[test]
    fn files_come_back() {
        let files = vec![vec![], vec![1, 2, 3], vec![4; 300]];
        let batch = pack(&files);
        assert_eq!(batch[..11], [0, 0, 0, 0, 3, 0, 0, 0, 1, 2, 3]);
        assert_eq!(unpack(&batch), Some(files));
        assert_eq!(unpack(&batch[..batch.len() - 1]), None);
        assert_eq!(unpack(&batch[..2]), None);
    }
}
