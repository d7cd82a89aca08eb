//! Where subtrees end, by hand.

use cse_reference::ends::{ends, entries, telling, ENTRIES};
use cse_reference::forest::{Forest, Tree};
use cse_reference::notation::parse;
use cse_reference::trees::*;

/// The first entries are these, and the others zero.
fn gives(bytes: &[u8], first: &[u16]) {
    let entries = entries(bytes);
    assert_eq!(&entries[..first.len()], first);
    assert_eq!(entries[first.len()..], vec![0; ENTRIES - first.len()]);
}

fn notes(text: &str, first: &[u16]) {
    let forest = parse(text).unwrap();
    assert_eq!(ends(&forest), first, "{text}");
    gives(&forest.to_bytes(), first);
}

#[test]
fn one_record() {
    notes("z", &[1]);
}

#[test]
fn two_leaves() {
    notes("p(z,z)", &[3, 2, 3]);
}

#[test]
fn a_subtree_before_others() {
    notes("p(n(z),z)", &[4, 3, 3, 4]);
    notes("if(n(n(z)),p(z,h),z)", &[8, 4, 4, 4, 7, 6, 7, 8]);
    // Block, definition of 1, n, z, p, and two uses.
    notes("{1=n(z); p(1,1)}", &[7, 4, 4, 4, 7, 6, 7]);
    notes("L7.p(7,n(7))", &[5, 5, 3, 5, 5]);
}

#[test]
fn records_are_numbered_over_all_trees() {
    notes("z | h", &[1, 2]);
    notes("n(z) | p(z,z) | k", &[2, 2, 5, 4, 5, 6]);
}

#[test]
fn marks_make_no_difference() {
    notes("p(n(x:1),x:2)", &[4, 3, 3, 4]);
}

/// A tuple of 255 leaves.
fn widest() -> Tree {
    tuple(vec![z(); 255])
}

#[test]
fn the_most_records() {
    // A tuple of 255, the last end of which is the record count.
    let expected: Vec<u16> = [256].into_iter().chain(2..=256).collect();
    let forest = alone(widest());
    assert_eq!(ends(&forest), expected);
    gives(&forest.to_bytes(), &expected);
    // 16 trees of 16 records.
    let forest = Forest {
        trees: vec![tuple(vec![z(); 15]); 16],
    };
    let expected = (0..256).map(|i| if i % 16 == 0 { i + 16 } else { i + 1 });
    gives(&forest.to_bytes(), &expected.collect::<Vec<u16>>());
}

#[test]
fn a_way_down_as_deep_as_allowed() {
    let deep = |depth| alone((1..depth).fold(z(), |tree, _| n(tree)));
    gives(&deep(64).to_bytes(), &[64; 64]);
    // Refused with 7.
    gives(&deep(65).to_bytes(), &[]);
}

#[test]
fn all_zero_where_refused() {
    gives(&[], &[]);
    // A use of an id that is not in force, which the last check finds.
    gives(&parse("p(n(z),3)").unwrap().to_bytes(), &[]);
    // A byte behind a forest.
    let bytes = [alone(widest()).to_bytes(), vec![0]].concat();
    gives(&bytes, &[]);
}

#[test]
fn what_tells_ends_from_shorter_rules() {
    for (text, told) in [
        ("z", false),
        ("p(z,z)", false),
        ("n(n(z))", false),
        ("z | h", false),
        ("n(z) | p(z,n(z))", false),
        ("p(n(z),z)", true),
        ("h | p(n(z),z) | n(h)", true),
    ] {
        assert_eq!(telling(&ends(&parse(text).unwrap())), told, "{text}");
    }
}
