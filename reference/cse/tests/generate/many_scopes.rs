//! Forests of many scopes: most of what is written for them are lambdas, more of them than records are read.

use crate::*;

use cse_reference::check::accept;

/// How many records of a tree a test holds for.
fn count(tree: &Tree, holds: &impl Fn(&Record) -> bool) -> usize {
    let inner = tree.children.iter().map(|child| count(child, holds));
    usize::from(holds(&tree.record)) + inner.sum::<usize>()
}

/// How many of a tree's thunks are blocks.
fn defining(tree: &Tree) -> usize {
    let is_thunk = |place: usize| match tree.record.opcode {
        0x95 => place > 0,
        0xED | 0xEC => place == 1,
        _ => false,
    };
    let each = tree.children.iter().enumerate().map(|(place, child)| {
        usize::from(is_thunk(place) && child.record.shape == 11) + defining(child)
    });
    each.sum()
}

#[test]
fn they_are_written_full_of_scopes() {
    let (mut read, mut records, mut lambdas, mut with_thunks) = (0, 0, 0, 0);
    let (mut largest, mut most_lambdas, mut deepest) = (0, 0, 0);
    for seed in 0..SEEDS {
        let forest = accepted(seed, Kind::ManyScopes);
        let given = answer(&forest.to_bytes(), MAX_OUTPUT, MIN_WORK_WORDS).unwrap();
        assert_eq!(given.number, 0, "{seed}");
        let written = accept(&given.tree).unwrap().trees.swap_remove(0);
        let here = count(&written, &|record| record.shape == 12);
        read += forest.size();
        records += written.size();
        lambdas += here;
        with_thunks += usize::from(defining(&written) > 0);
        largest = largest.max(written.size());
        most_lambdas = most_lambdas.max(here);
        deepest = deepest.max(nested_scopes(&written));
    }
    assert_eq!((largest, deepest), (256, 11));
    assert!(most_lambdas > 210, "{most_lambdas}");
    assert!(5 * lambdas > 3 * records, "{lambdas} of {records}");
    assert!(2 * lambdas > 3 * read, "{lambdas} of {read} read");
    assert!(with_thunks > 30, "{with_thunks}");
}
