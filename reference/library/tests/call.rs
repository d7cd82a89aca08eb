//! The wrapper over the linked library, on the smallest inputs; `beside` compares at scale.

use cse_library::{call, tree, Numbers, WORK_WORDS};

/// HEIGHT alone, in and out (document 01, "Trees to compare").
const HEIGHT: [u8; 13] = [1, 0, 1, 0, 8, 0, 5, 0, 2, 0xA3, 0, 0, 0];

#[test]
fn height_comes_back() {
    assert_eq!(tree(&HEIGHT), Ok(HEIGHT.to_vec()));
}

#[test]
fn the_numbers_of_a_success() {
    let mut out = [7; 20];
    let mut work = vec![9; WORK_WORDS + 1];
    let numbers = call(&HEIGHT, &mut out, &mut work);
    let expected = Numbers {
        number: 0,
        place: 0,
        written_length: 13,
        symbols: 1,
        readings: 1,
    };
    assert_eq!(numbers, expected);
    assert_eq!(out[..13], HEIGHT);
    assert_eq!(out[13..], [7; 7]);
    assert!(work[..WORK_WORDS].iter().all(|&word| word == 0));
    assert_eq!(work[WORK_WORDS], 9);
}

#[test]
fn an_output_a_byte_too_short_is_refused_and_kept() {
    let mut out = [7; 12];
    let mut work = vec![9; WORK_WORDS];
    let numbers = call(&HEIGHT, &mut out, &mut work);
    assert_eq!(
        numbers,
        Numbers {
            number: 13,
            ..Numbers::default()
        }
    );
    assert_eq!(out, [7; 12]);
    assert!(work.iter().all(|&word| word == 0));
}

#[test]
fn no_bytes_are_refused() {
    assert_eq!(tree(&[]), Err((2, 0)));
}

#[test]
fn too_few_work_words_are_kept() {
    let mut work = vec![9; WORK_WORDS - 1];
    let numbers = call(&HEIGHT, &mut [], &mut work);
    assert_eq!(
        numbers,
        Numbers {
            number: 1,
            ..Numbers::default()
        }
    );
    assert!(work.iter().all(|&word| word == 9));
}
