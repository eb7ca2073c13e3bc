//! The model of loading in pieces: positions worked out by hand, and the same answers as the reader of whole files.

use oracle::{
    damage::{DAMAGES, spoilt},
    file::{self, Limits},
    levels::{KINDS, Size},
    pieces::{Stop, load},
    refusals::Refusal,
};

/// One cell with one span.
const FILE: [u8; 20] = [
    1, 1, 0, 1, 0, 0, 0, 8, 0, 20, 0, 2, 1, 3, 7, 255, 255, 255, 255, 4,
];

fn stop(bytes: &[u8]) -> Option<(Refusal, usize)> {
    let answer = load(bytes, Limits::PROGRAM).answer;
    answer
        .err()
        .map(|Stop { refusal, position }| (refusal, position))
}

#[test]
fn positions_by_hand() {
    assert_eq!(stop(&FILE), None);
    for len in 0..FILE.len() {
        assert_eq!(
            stop(&FILE[..len]),
            Some((Refusal::BadFile, len)),
            "cut at {len}"
        );
    }
    let mut longer = FILE.to_vec();
    longer.extend([4, 4]);
    assert_eq!(stop(&longer), Some((Refusal::BadFile, 20)));
    for place in [0, 11, 13, 19] {
        for kind in (0..=255).filter(|&kind| kind != FILE[place]) {
            let mut other = FILE;
            other[place] = kind;
            // a kind out of place is at its kind byte even if its body is cut
            assert_eq!(stop(&other), Some((Refusal::BadFile, place)));
            assert_eq!(stop(&other[..=place]), Some((Refusal::BadFile, place)));
        }
    }
}

#[test]
fn too_large_once_its_record_is_whole() {
    let mut wide = FILE;
    (wide[1], wide[2]) = (1, 4);
    assert_eq!(stop(&wide), Some((Refusal::FileTooLarge, 0)));
    assert_eq!(stop(&wide[..11]), Some((Refusal::FileTooLarge, 0)));
    assert_eq!(stop(&wide[..10]), Some((Refusal::BadFile, 10)));
    let mut high = FILE;
    high[12] = 201;
    assert_eq!(stop(&high), Some((Refusal::FileTooLarge, 11)));
    assert_eq!(stop(&high[..13]), Some((Refusal::FileTooLarge, 11)));
    assert_eq!(stop(&high[..12]), Some((Refusal::BadFile, 12)));
    high[12] = 200;
    assert_eq!(stop(&high), Some((Refusal::BadFile, 19)));
}

#[test]
fn as_the_reader_of_whole_files() {
    for seed in 0..300 {
        let kind = &KINDS[seed as usize % KINDS.len()];
        let damage = &DAMAGES[seed as usize % DAMAGES.len()];
        let sound = file::write(&kind.make(Size::Small, seed));
        for bytes in [sound, damage.make(seed), spoilt(seed)] {
            let read = file::read(&bytes, Limits::PROGRAM);
            assert_eq!(load(&bytes, Limits::PROGRAM).case(), read, "seed {seed}");
        }
    }
}
