//! The copy of the pass that remembers free lists gives the original's trees, and counts the entries of these lists.

use cse_reference::generate::{accepted, Kind};
use cse_reference::notation;
use cse_reference::oracle::{answer_deep, entries, NoAnswer, MAX_OUTPUT, MIN_WORK_WORDS};

#[test]
fn both_copies_give_the_same_answers() {
    let kinds = [
        Kind::Medium,
        Kind::Deep,
        Kind::Thunks,
        Kind::Lambdas,
        Kind::Projections,
        Kind::Blocks,
    ];
    let mut trees = 0;
    for kind in kinds {
        for seed in 0..200 {
            let forest = accepted(seed, kind).to_bytes();
            match answer_deep(&forest, MAX_OUTPUT, MIN_WORK_WORDS) {
                Ok(told) => trees += u32::from(told.work.is_some_and(|work| work.in_time())),
                Err(NoAnswer::Skipped(_)) => {}
                Err(fault) => panic!("{kind:?} {seed}: {fault}"),
            }
        }
    }
    assert!(trees > 1_000, "{trees}");
}

#[test]
fn every_nested_forest_has_an_answer() {
    for kind in [Kind::Scopes, Kind::NearLimit, Kind::Flat] {
        for seed in 0..100 {
            let forest = accepted(seed, kind).to_bytes();
            let told = answer_deep(&forest, MAX_OUTPUT, MIN_WORK_WORDS);
            assert!(told.is_ok(), "{kind:?} {seed}");
        }
    }
}

fn entries_of(script: &str) -> usize {
    entries(&notation::parse(script).expect("the script is in the notation"))
}

/// A free list has what lies outside its symbol's scope, each once, and no argument.
#[test]
fn entries_are_counted() {
    assert_eq!(entries_of("p(z,n(z))"), 0);
    // The sum has `z`, which is made before the thunk, and not `x`.
    assert_eq!(entries_of("and(z,p(z,x))"), 1);
    assert_eq!(entries_of("and(z,n(p(z,x)))"), 2);
    assert_eq!(entries_of("and(z,p(z,z))"), 1);
    // The lambda's body is in its own scope, and so is the thunk in there.
    assert_eq!(entries_of("p(z,L7.p(7,z))"), 1);
    assert_eq!(entries_of("p(z,L7.and(7,p(7,z)))"), 2);
    // The inner sum has `z` and `x`, what is around it `z` alone.
    assert_eq!(entries_of("and(z,and(x,p(x,z)))"), 3);
}
