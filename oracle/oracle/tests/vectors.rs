//! The stored vectors.

use oracle::{
    file::Limits,
    listing,
    model::Model,
    vectors::{self, STORED, unpack},
};
use std::fs;

fn fields() -> Vec<u8> {
    fs::read(format!("{STORED}/stdin")).expect("the stored fields")
}

fn answers() -> String {
    fs::read_to_string(format!("{STORED}/stdout")).expect("the stored answers")
}

fn files() -> Vec<Vec<u8>> {
    unpack(&fields()).expect("a whole batch")
}

#[test]
fn answers_are_those_of_the_unchanged_rust_and_of_the_model() {
    let files = files();
    assert_eq!(vectors::answers(&files), answers());
    let modelled: String = files.iter().map(|file| Model::RIGHT.answer(file)).collect();
    assert_eq!(modelled, answers());
}

#[test]
fn every_mistake_that_can_be_seen_is_caught() {
    for (mistake, count) in vectors::count_caught(&files()) {
        match mistake.unseen() {
            None => assert!(count > 1, "{mistake:?} is caught {count} times"),
            Some(_) => assert_eq!(count, 0, "{mistake:?} is caught"),
        }
    }
}

/// Many of them, small in all, and each refusal that a file can meet with.
#[test]
fn there_are_enough_of_each_sort() {
    let files = files();
    assert!(files.len() >= 600);
    assert!(fields().len() + answers().len() < 700_000);
    let refused = |number: u8| {
        let line = format!("refused {number}\n");
        let is_refused = |file: &&Vec<u8>| listing::answer(file, Limits::PROGRAM) == line;
        files.iter().filter(is_refused).count()
    };
    for number in [1, 4, 5, 6, 20, 21] {
        assert!(refused(number) >= 12, "refused {number}");
    }
    let answered = files.len() - (1..=21).map(refused).sum::<usize>();
    assert!(answered >= 350, "{answered} are answered");
}
