//! What definitions save, by hand. With its pair z, n, p, if and tuple have 9 bytes, s1 10, x 11, a use 13, a lambda with one
//! argument 14; so a definition used twice saves its value's size less 40, which is 14 + 2 × 13.

use std::cmp::Ordering::{self, Equal, Greater, Less};

use cse_reference::forest::{Forest, Tree};
use cse_reference::lister::listing;
use cse_reference::notation::parse;
use cse_reference::oracle::answer;
use cse_reference::savings::{savings, size};
use cse_reference::trees::*;

/// The forest is written as this tree, and these lines of definitions stand behind those of its symbols.
fn saves(forest: &Forest, written: &Forest, lines: &str) {
    let bytes = forest.to_bytes();
    let given = answer(&bytes, 65_535, 16_384).unwrap();
    assert_eq!(given.number, 0);
    assert_eq!(given.tree, written.to_bytes());
    let text = listing(&bytes).unwrap().text;
    let behind = text.lines().skip(1 + given.symbols as usize);
    // Those of rules have words behind the number.
    let saving = |line: &&str| {
        line.split(' ')
            .skip(1)
            .all(|word| word.parse::<i64>().is_ok())
    };
    assert!(behind.take_while(saving).eq(lines.lines()), "{text}");
    assert!(text.ends_with('\n'));
}

fn notes(forest: &str, written: &str, lines: &str) {
    saves(&parse(forest).unwrap(), &parse(written).unwrap(), lines);
}

/// A constant of class other whose record has so many literal bytes, 9 more with its pair.
fn large(literal: usize) -> Tree {
    node(0, 0x00, 6, &vec![5; literal], vec![])
}

/// A definition 1 with that value and so many uses.
fn used(value: Tree, uses: usize) -> Forest {
    alone(block(vec![(1, value)], tuple(vec![val_use(1); uses])))
}

#[test]
fn sizes_are_bytes_with_pairs() {
    // All bytes of a forest but the four of its header.
    for text in ["z", "p(n(z),x:3)", "L7,8.{1=s1(7); tuple(1,8,1)}"] {
        let forest = parse(text).unwrap();
        assert_eq!(
            size(&forest.trees[0]),
            forest.to_bytes().len() as i64 - 4,
            "{text}"
        );
    }
    assert_eq!(size(&large(1_000)), 1_009);
}

#[test]
fn a_tree_without_definitions_has_no_line() {
    notes("p(h,h)", "p(h,h)", "");
    notes("n(p(z,z)) | n(z)", "n(z)", "");
}

#[test]
fn a_refusal_has_its_line_alone() {
    let text = listing(&alone(val_use(3)).to_bytes()).unwrap().text;
    assert_eq!(text, "refused 10 at 0\n");
}

#[test]
fn the_requests_example() {
    // 9 - 40.
    notes("p(z,z)", "{1=z; p(1,1)}", "1 -31\n");
}

#[test]
fn the_environment_is_not_counted() {
    // z has two uses in the written tree, 9 - 40; n(1) has 22 bytes and two, 22 - 40.
    notes(
        "n(z) | if(z,n(z),n(z))",
        "{1=z; 2=n(1); if(1,2,2)}",
        "1 -31\n2 -18\n",
    );
}

#[test]
fn in_a_lambda() {
    // n(1) with 9 + 13 bytes: 22 - 40.
    notes("L7.p(n(7),n(7))", "L1.{3=n(1); p(3,3)}", "3 -18\n");
}

#[test]
fn in_a_thunk() {
    // 11 - 40.
    notes("if(h,p(x,x),z)", "if(h,{1=x; p(1,1)},z)", "1 -29\n");
}

#[test]
fn an_id_in_two_places_has_two_lines() {
    notes(
        "if(h,p(x,x),p(x,x))",
        "if(h,{1=x; p(1,1)},{1=x; p(1,1)})",
        "1 -29\n1 -29\n",
    );
    // The second has three uses: 3 × 9 - 9 - 14 - 3 × 13.
    notes(
        "if(h,p(x,x),tuple(z,z,z))",
        "if(h,{1=x; p(1,1)},{1=z; tuple(1,1,1)})",
        "1 -29\n1 -35\n",
    );
}

#[test]
fn nested_in_a_value() {
    // The outer value: if 9, h 9, block 9, definition 14, x 11, p 9, two uses 26, z 9; together 96, and 96 - 40. The inner
    // definition has the same id, and uses of its own: 11 - 40.
    notes(
        "{1=if(h,p(x,x),z); p(1,1)}",
        "{1=if(h,{1=x; p(1,1)},z); p(1,1)}",
        "1 56\n1 -29\n",
    );
}

#[test]
fn an_argument_with_the_definitions_id() {
    // The outer value: lambda 14, block 9, definition 14, n 9, use 13, p 9, two uses 26; together 94, and 94 - 40. Of the
    // three uses of id 1 the first is the argument's. The inner value has 22 bytes: 22 - 40.
    notes(
        "{5=L7.p(n(7),n(7)); p(5,5)}",
        "{1=L1.{3=n(1); p(3,3)}; p(1,1)}",
        "1 54\n3 -18\n",
    );
}

#[test]
fn used_once() {
    // z has three uses: 27 - 9 - 14 - 39. s1(1) has 10 + 13 bytes and one use: 23 - 23 - 14 - 13.
    for forest in ["if(z,s1(z),s1(z))", "{1=z; if(1,{2=s1(1); 2},s1(1))}"] {
        let written = "{1=z; if(1,{2=s1(1); 2},s1(1))}";
        notes(forest, written, "1 -35\n2 -27\n");
    }
}

#[test]
fn on_either_side_of_zero() {
    let pair = |constant: Tree| alone(p(constant.clone(), constant));
    let written = |constant| alone(block(vec![(1, constant)], p(val_use(1), val_use(1))));
    // 39 - 40, 40 - 40, 41 - 40, 1,009 - 40.
    for (literal, lines) in [
        (30, "1 -1\n"),
        (31, "1 0\n"),
        (32, "1 1\n"),
        (1_000, "1 969\n"),
    ] {
        saves(&pair(large(literal)), &written(large(literal)), lines);
    }
    // More uses: 3 × 26 - 26 - 14 - 39, and 4 × 22 - 22 - 14 - 52.
    saves(&used(large(17), 3), &used(large(17), 3), "1 -1\n");
    saves(&used(large(13), 4), &used(large(13), 4), "1 0\n");
}

/// Of 256 records a block, its definition, the value and the record over the uses leave 252 uses. Of 65,535 bytes the header
/// takes 4 and the others 9 + 14 + 9 + 252 × 13, which leaves 62,223 for the value: a literal of 62,214. With fewer uses the
/// value has at most 13 bytes more a use, and some 62,000 are lost.
#[test]
fn the_widest_saving() {
    let forest = used(large(62_214), 252);
    assert_eq!((forest.size(), forest.to_bytes().len()), (256, 65_535));
    // 251 × 62,223 = 15,617,973, less 14 and 252 × 13 = 3,276.
    saves(&forest, &forest, "1 15614683\n");
}

/// The least of one that is used: a value has 9 bytes or more, and with 9 each use costs 4.
#[test]
fn the_least_saving() {
    // 252 × 9 - 9 - 14 - 252 × 13.
    saves(&used(z(), 252), &used(z(), 252), "1 -1031\n");
}

/// What the pass does not write, or no forest may have.
#[test]
fn uses_go_by_what_is_in_force() {
    let lines = |text: &str| savings(&parse(text).unwrap().trees[0]).lines();
    // No use: 0 - 9 - 14.
    assert_eq!(lines("{1=z; h}"), "1 -23\n");
    // The argument is behind the definition, or around it, or in its value; one use each, 0 - 14 - 13, or none, 0 - 9 - 14.
    assert_eq!(lines("{1=z; p(1,L1.1)}"), "1 -27\n");
    assert_eq!(lines("L1.p(1,{1=z; 1})"), "1 -27\n");
    assert_eq!(lines("{1=z; L1.1}"), "1 -23\n");
    assert_eq!(lines("L1.{1=n(1); 1}"), "1 -27\n");
    // The second definition of 1 takes the uses behind it, and the first those in its value: 0 - 27, and 22 - 40.
    assert_eq!(lines("{1=z; 1=n(1); p(1,1)}"), "1 -27\n1 -18\n");
}

#[test]
fn the_sum_is_the_count_over_records() {
    for (text, total) in [
        ("p(h,h)", 0),
        ("{1=z; p(1,1)}", -31),
        ("{1=if(h,{1=x; p(1,1)},z); p(1,1)}", 56 - 29),
        ("{1=z; if(1,{2=s1(1); 2},s1(1))}", -35 - 27),
    ] {
        let found = savings(&parse(text).unwrap().trees[0]);
        assert_eq!((found.total(), found.counted), (total, total), "{text}");
    }
    // {1=z; p(1,1)}: two uses with 9 - 13, and a definition with -(9 + 14).
    assert_eq!(-31, 2 * (9 - 13) - (9 + 14));
}

#[test]
fn a_listing_tells_what_its_tree_saves() {
    let told = |forest: &Forest| {
        let listing = listing(&forest.to_bytes()).unwrap();
        let sides = [Less, Equal, Greater].into_iter();
        let sides: Vec<Ordering> = sides.filter(|side| listing.saves(*side)).collect();
        (listing.defines(), sides, listing.tells_savings())
    };
    assert_eq!(told(&alone(val_use(3))), (false, vec![], false));
    assert_eq!(told(&alone(h())), (false, vec![], false));
    assert_eq!(told(&alone(p(z(), z()))), (true, vec![Less], false));
    // Each definition has an id of its own.
    let twice = |a: Tree, b: Tree| alone(tuple(vec![a.clone(), a, b.clone(), b]));
    let forest = twice(large(31), large(32));
    assert_eq!(told(&forest), (true, vec![Equal, Greater], false));
    // Both have id 1; an argument has.
    for text in ["{1=if(h,p(x,x),z); p(1,1)}", "{5=L7.p(n(7),n(7)); p(5,5)}"] {
        let forest = parse(text).unwrap();
        assert_eq!(told(&forest), (true, vec![Less, Greater], true), "{text}");
    }
}
