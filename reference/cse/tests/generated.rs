//! Generated forests: the accepted ones get an answer that keeps the meaning, with definitions that save what the records
//! say, the damaged ones exactly their refusal.

use std::collections::BTreeMap;

use cse_reference::check::{accept, Refusal};
use cse_reference::damage::{damaged, two_shapes, NUMBERS};
use cse_reference::generate::{Family, Kind};
use cse_reference::oracle::{answer, NoAnswer};
use cse_reference::savings::savings;
use cse_reference::unfold::keeps_meaning;

const FORESTS_A_KIND: u64 = 240;

/// How often each number was given; 0 with a tree whose meaning was compared.
fn numbers(family: Family, seeds: std::ops::Range<u64>) -> BTreeMap<Option<u32>, u32> {
    let mut numbers = BTreeMap::new();
    let name = family.name();
    for seed in seeds {
        let forest = family.forest(seed);
        let bytes = forest.to_bytes();
        assert_eq!(accept(&bytes), Ok(forest), "{name} {seed}");
        let number = match answer(&bytes, 65_535, 16_384) {
            Ok(given) => {
                if given.number == 0 {
                    let same = keeps_meaning(&bytes, &given.tree);
                    assert_eq!(same, Some(true), "{name} {seed}");
                    let written = accept(&given.tree).unwrap();
                    let found = savings(&written.trees[0]);
                    assert_eq!(found.total(), found.counted, "{name} {seed}");
                }
                Some(given.number)
            }
            Err(NoAnswer::Skipped(_)) => None,
            Err(fault) => panic!("{name} {seed}: {fault}"),
        };
        *numbers.entry(number).or_insert(0) += 1;
    }
    numbers
}

#[test]
fn accepted_forests_keep_their_meaning() {
    for marked in [false, true] {
        let mut written = 0;
        for kind in Kind::ALL {
            let found = numbers(Family { kind, marked }, 0..FORESTS_A_KIND);
            let unexpected = found.keys().flatten().find(|n| !matches!(n, 0 | 11..=14));
            assert_eq!(unexpected, None, "{kind:?} {marked}");
            written += found.get(&Some(0)).copied().unwrap_or(0);
        }
        assert!(written > 2_000, "{marked}: {written}");
    }
}

#[test]
fn the_kinds_for_limits_reach_both_sides() {
    let reaches = |kind, wanted: &[u32]| {
        for marked in [false, true] {
            let found = numbers(Family { kind, marked }, 1_000..1_120);
            for number in wanted {
                assert!(
                    found.contains_key(&Some(*number)),
                    "{kind:?} {marked} {number}: {found:?}"
                );
            }
        }
    };
    reaches(Kind::Readings, &[0, 11]);
    reaches(Kind::Symbols, &[0, 12]);
    reaches(Kind::NearLimit, &[0, 13, 14]);
}

#[test]
fn damaged_forests_get_their_refusal() {
    let mut found = BTreeMap::new();
    for seed in 0..2_000 {
        let case = damaged(seed);
        let (number, place) = (case.number, case.place);
        assert_eq!(
            accept(&case.bytes),
            Err(Refusal { number, place }),
            "{seed}"
        );
        *found.entry(number).or_insert(0) += 1;
    }
    let mut numbers = NUMBERS;
    numbers.sort();
    assert!(found.into_keys().eq(numbers));
}

#[test]
fn forests_with_two_shapes_get_their_refusal() {
    for seed in 0..4_000 {
        let (case, way) = two_shapes(seed);
        let (number, place) = (case.number, case.place);
        assert_eq!(
            accept(&case.bytes),
            Err(Refusal { number, place }),
            "{seed}: {way}"
        );
    }
}
