//! Field files in pieces: the stored vectors, each cut at every byte, and the model of document 02 beside the loader.

use gussetraft::{Lists, LoadRefusal, Loaded, Loader, Refusal};
use oracle::{file::Limits, pieces};
use std::{fs, path::Path};

/// The stored vectors, each after its length.
fn vectors() -> Vec<Vec<u8>> {
    let path = Path::new(env!("CARGO_MANIFEST_DIR")).join("../../crates/vectors/stdin");
    let bytes = fs::read(path).expect("the stored vectors");
    let (mut rest, mut files) = (&bytes[..], Vec::new());
    while let Some((len, after)) = rest.split_first_chunk::<4>() {
        let (file, after) = after.split_at(u32::from_le_bytes(*len) as usize);
        files.push(file.to_vec());
        rest = after;
    }
    files
}

/// Lists of the program's limits, with any numbers in them.
#[derive(Clone, Debug, PartialEq, Eq)]
struct Room {
    index: Vec<u32>,
    count: Vec<u8>,
    area: Vec<u8>,
    con: Vec<u8>,
}

impl Room {
    fn new() -> Self {
        Self {
            index: (0..1_024).map(|place| place * 40_503 + 7).collect(),
            count: (0..1_024).map(|place| (place * 31 + 5) as u8).collect(),
            area: (0..200).map(|place| (place * 37 + 3) as u8).collect(),
            con: (0..800).map(|place| (place * 41 + 1) as u8).collect(),
        }
    }

    fn lists(&mut self) -> Lists<'_> {
        Lists {
            index: &mut self.index,
            count: &mut self.count,
            area: &mut self.area,
            con: &mut self.con,
        }
    }
}

/// What loading these pieces and declaring the end leaves, and every answer.
fn load(pieces: &[&[u8]]) -> (Loader, Room, Result<Loaded, LoadRefusal>) {
    let (mut room, mut loader) = (Room::new(), Loader::new(1_024, 200));
    let mut refused = None;
    for piece in pieces {
        let answer = loader.piece(piece, &mut room.lists());
        if refused.is_some() {
            assert_eq!(answer.err(), refused, "after a refusal");
        }
        refused = answer.err();
    }
    let answer = loader.end();
    if refused.is_some() {
        assert_eq!(answer.err(), refused, "the end after a refusal");
    }
    (loader, room, answer)
}

#[test]
fn every_vector_cut_at_every_byte_gives_the_same() {
    let files = vectors();
    assert!(files.len() > 100, "the vectors are not all there");
    for (number, file) in files.iter().enumerate() {
        let whole = load(&[file]);
        for cut in 0..=file.len() {
            let (first, second) = file.split_at(cut);
            assert!(
                load(&[first, second]) == whole,
                "vector {number} cut at {cut}"
            );
        }
        let bytes: Vec<_> = file.chunks(1).collect();
        assert!(load(&bytes) == whole, "vector {number}, byte by byte");
    }
}

#[test]
fn every_vector_and_its_beginnings_as_the_model_has_them() {
    for (number, file) in vectors().iter().enumerate() {
        for len in (0..=file.len()).rev().take(40).chain([0, 1, 10, 11, 12]) {
            let Some(bytes) = file.get(..len) else {
                continue;
            };
            let (_, room, answer) = load(&[bytes]);
            let expected = pieces::load(bytes, Limits::PROGRAM);
            let mut left = Room::new();
            left.index[..expected.field.index.len()].copy_from_slice(&expected.field.index);
            left.count[..expected.field.count.len()].copy_from_slice(&expected.field.count);
            left.area[..expected.field.area.len()].copy_from_slice(&expected.field.area);
            left.con[..expected.field.con.len()].copy_from_slice(&expected.field.con);
            assert!(room == left, "vector {number}, {len} bytes: the lists");
            match (answer, expected.answer) {
                (Ok(loaded), Ok(settings)) => {
                    assert_eq!((loaded.w, loaded.h), (expected.field.w, expected.field.h));
                    assert_eq!(loaded.spans, expected.field.spans());
                    assert_eq!(loaded.sizes.border_size, settings.border_size);
                    assert_eq!(loaded.sizes.min_region_area, settings.least_area);
                    assert_eq!(loaded.sizes.merge_region_area, settings.merge_area);
                }
                (Err(refused), Err(stop)) => {
                    assert_eq!(refused.refusal.number(), stop.refusal as u16);
                    assert_eq!(refused.position, Some(stop.position as u32));
                }
                (answer, _) => panic!("vector {number}, {len} bytes: {answer:?}"),
            }
        }
    }
}

#[test]
fn short_lists_are_refused_3_and_nothing_changes() {
    let (mut room, mut loader) = (Room::new(), Loader::new(1_024, 200));
    let before = (room.clone(), loader.clone());
    for short in 0..4 {
        let mut lists = room.lists();
        match short {
            0 => lists.index = &mut lists.index[1..],
            1 => lists.count = &mut lists.count[1..],
            2 => lists.area = &mut lists.area[1..],
            _ => lists.con = &mut lists.con[1..],
        }
        let refused = loader.piece(&[2], &mut lists).unwrap_err();
        assert_eq!(
            (refused.refusal, refused.position),
            (Refusal::WrongLength, None)
        );
    }
    assert_eq!((room, loader), before);
}
