//! Every line of document 01, "Trees to compare".

use cse_reference::forest::{Forest, Tree};
use cse_reference::lister::{self, lister, listing};
use cse_reference::oracle::{answer, tells_marks, Answer};
use cse_reference::trees::*;
use cse_reference::unfold::keeps_meaning;

fn call(forest: &Forest) -> Answer {
    answer(&forest.to_bytes(), 65_535, 16_384).unwrap()
}

/// The forest's answer must be this tree; gives the answer for its counts.
fn gives(forest: &Forest, tree: Tree) -> Answer {
    let given = call(forest);
    let expected = alone(tree).to_bytes();
    assert_eq!((given.number, given.place), (0, 0));
    assert_eq!(given.tree, expected);
    assert_eq!(given.written_length as usize, expected.len());
    assert_eq!(keeps_meaning(&forest.to_bytes(), &expected), Some(true));
    given
}

fn refuses(forest: &Forest, number: u32, place: u32) {
    let expected = Answer {
        number,
        place,
        written_length: 0,
        symbols: 0,
        readings: 0,
        tree: vec![],
    };
    assert_eq!(call(forest), expected);
}

#[test]
fn height_has_the_same_bytes_both_ways() {
    let bytes = [
        0x01, 0x00, 0x01, 0x00, 0x08, 0x00, 0x05, 0x00, 0x02, 0xA3, 0x00, 0x00, 0x00,
    ];
    assert_eq!(alone(h()).to_bytes(), bytes);
    let given = answer(&bytes, 65_535, 16_384).unwrap();
    assert_eq!(given.tree, bytes);
    assert_eq!((given.symbols, given.readings), (1, 1));
}

#[test]
fn context_properties_and_scalar_constants_stay() {
    gives(&alone(h()), h());
    gives(&alone(p(h(), h())), p(h(), h()));
    gives(&alone(p(k(), k())), p(k(), k()));
}

#[test]
fn what_is_used_twice_is_defined_once() {
    let shared = |value| block(vec![(1, value)], p(val_use(1), val_use(1)));
    gives(&alone(p(z(), z())), shared(z()));
    gives(&alone(p(x(), x())), shared(x()));
    gives(&alone(p(n(z()), n(z()))), shared(n(z())));
}

#[test]
fn marks_tell_constants_apart() {
    let pair = |constant: fn() -> Tree, left, right| {
        alone(p(marked(constant(), left), marked(constant(), right)))
    };
    let symbols = |forest: &Forest| call(forest).symbols;
    assert_eq!(symbols(&pair(k, 1, 2)), 3);
    assert_eq!(symbols(&pair(k, 1, 1)), 2);
    // A scalar with a mark is a scalar still, and any other constant is hoisted with its mark.
    gives(&pair(k, 1, 1), p(marked(k(), 1), marked(k(), 1)));
    gives(&pair(k, 1, 2), p(marked(k(), 1), marked(k(), 2)));
    for mark in [1, 35] {
        gives(
            &pair(x, mark, mark),
            block(vec![(1, marked(x(), mark))], p(val_use(1), val_use(1))),
        );
    }
    gives(&pair(x, 1, 2), p(marked(x(), 1), marked(x(), 2)));
    gives(&pair(x, 0, 35), p(x(), marked(x(), 35)));
}

#[test]
fn a_forest_tells_marks_where_they_keep_constants_apart() {
    let tells = |root: Tree| {
        let forest = alone(root);
        let bytes = forest.to_bytes();
        let answer = tells_marks(&bytes, &call(&forest));
        let text = lister::tells_marks(&bytes, &listing(&bytes).unwrap());
        assert_eq!(text, answer);
        answer
    };
    let constants = |of: fn() -> Tree, left, right| p(marked(of(), left), marked(of(), right));
    // Other symbols, another tree.
    assert!(tells(constants(k, 1, 2)));
    assert!(tells(constants(x, 0, 35)));
    // The same but for the marks themselves, or no marks.
    assert!(!tells(constants(k, 1, 1)));
    assert!(!tells(constants(x, 35, 35)));
    assert!(!tells(constants(x, 0, 0)));
    assert!(!tells(p(marked(k(), 1), marked(x(), 2))));
    // Refused with marks and without.
    assert!(!tells(val_use(3)));
}

/// p(x:1,x:1), byte for byte: aux is 6 + 7 × 1.
#[test]
fn a_mark_is_in_the_written_tree() {
    let forest = alone(p(
        node(0, 0x00, 13, &[7, 1], vec![]),
        node(0, 0x00, 13, &[7, 1], vec![]),
    ));
    let directory = [
        [28, 0, 5, 0],
        [33, 0, 10, 0],
        [43, 0, 7, 0],
        [50, 0, 5, 0],
        [55, 0, 9, 0],
        [64, 0, 9, 0],
    ];
    let records: [&[u8]; 6] = [
        &[11, 0xD8, 2, 0, 0],
        &[10, 0xD6, 1, 0, 0, 1, 0, 0, 0, 0],
        &[0, 0x00, 0, 0, 13, 7, 1],
        &[4, 0x9A, 2, 0, 0],
        &[7, 0x72, 0, 0, 0, 1, 0, 0, 0],
        &[7, 0x72, 0, 0, 0, 1, 0, 0, 0],
    ];
    let header = [1, 0, 6, 0];
    let expected = [&header[..], &directory.concat(), &records.concat()].concat();
    assert_eq!(call(&forest).tree, expected);
}

#[test]
fn branches_share_only_what_was_built_before_them() {
    let branches = if_(z(), n(z()), n(z()));
    gives(
        &alone(branches.clone()),
        block(
            vec![(1, z())],
            if_(val_use(1), n(val_use(1)), n(val_use(1))),
        ),
    );
    let after_environment = Forest {
        trees: vec![n(z()), branches],
    };
    gives(
        &after_environment,
        block(
            vec![(1, z()), (2, n(val_use(1)))],
            if_(val_use(1), val_use(2), val_use(2)),
        ),
    );
}

#[test]
fn a_projection_is_remembered_across_branches() {
    gives(
        &alone(if_(z(), s1(z()), s1(z()))),
        block(
            vec![(1, z())],
            if_(
                val_use(1),
                block(vec![(2, s1(val_use(1)))], val_use(2)),
                s1(val_use(1)),
            ),
        ),
    );
}

#[test]
fn a_lambda_keeps_what_depends_on_its_argument() {
    gives(
        &alone(lambda(&[7], p(n(val_use(7)), n(val_use(7))))),
        lambda(
            &[1],
            block(vec![(3, n(val_use(1)))], p(val_use(3), val_use(3))),
        ),
    );
    gives(
        &alone(lambda(&[7], p(n(z()), n(z())))),
        block(vec![(1, n(z()))], lambda(&[2], p(val_use(1), val_use(1)))),
    );
}

#[test]
fn the_input_of_a_field_of_a_tuple_is_read_twice() {
    let given = gives(
        &alone(s1(tuple(vec![z(), z()]))),
        block(vec![(1, z())], s1(tuple(vec![val_use(1), val_use(1)]))),
    );
    assert_eq!((given.symbols, given.readings), (3, 7));
}

#[test]
fn refusals() {
    assert_eq!(answer(&[], 65_535, 16_384).unwrap().number, 2);
    refuses(&alone(val_use(3)), 10, 0);
    refuses(&alone(lambda(&[1], lambda(&[1], val_use(1)))), 9, 1);
}

/// `n` so many times around `z`.
fn chain(operations: usize) -> Tree {
    (0..operations).fold(z(), |tree, _| n(tree))
}

#[test]
fn depth_64_passes_and_65_does_not() {
    gives(&alone(chain(63)), chain(63));
    refuses(&alone(chain(64)), 7, 64);
}

#[test]
fn an_output_must_be_long_enough() {
    let forest = alone(p(z(), z())).to_bytes();
    let length = answer(&forest, 65_535, 16_384).unwrap().tree.len();
    assert_eq!(answer(&forest, length, 16_384).unwrap().number, 0);
    assert_eq!(answer(&forest, length - 1, 16_384).unwrap().number, 13);
    assert_eq!(answer(&forest, 0, 16_384).unwrap().number, 13);
}

#[test]
fn work_words_must_be_enough() {
    let forest = alone(h()).to_bytes();
    assert_eq!(answer(&forest, 65_535, 16_383).unwrap().number, 1);
    assert_eq!(answer(&[], 0, 0).unwrap().number, 1);
    assert_eq!(answer(&forest, 65_535, 16_385).unwrap().number, 0);
}

fn lists(forest: &Forest, text: &str) {
    let given = lister(&forest.to_bytes()).unwrap();
    assert_eq!(String::from_utf8(given).unwrap(), text);
}

#[test]
fn the_lister() {
    lists(
        &alone(p(z(), z())),
        "symbols 2\n0 O FE 0 2 y\n1 O 9A 0 0 n\n1 -31\n0 hoisted in scope 0\n1 used at most once\n",
    );
    lists(&alone(val_use(3)), "refused 10 at 0\n");
}

#[test]
fn the_lister_shows_no_marks() {
    // What the gate says and how often a symbol is used still hang on them.
    let pair = |left, right| alone(p(marked(x(), left), marked(x(), right)));
    // The tree has {1=x; p(1,1)}: 2 × 11 - 11 - 14 - 2 × 13.
    let shared =
        "symbols 2\n0 C 00 0 2 y\n1 O 9A 0 0 n\n1 -29\n0 hoisted in scope 0\n1 used at most once\n";
    lists(&pair(0, 0), shared);
    lists(&pair(35, 35), shared);
    let apart = "symbols 3\n0 C 00 0 1 n\n1 C 00 0 1 n\n2 O 9A 0 0 n\n\
         0 used at most once\n1 used at most once\n2 used at most once\n";
    lists(&pair(1, 2), apart);
    // Class 5 with mark 1 is a scalar, as class 5 is; so is class 0 with mark 1, which is aux 7.
    for aux in [5, 12, 7] {
        let scalar = node(0, 0x00, aux, &[7, 1], vec![]);
        lists(
            &alone(p(scalar.clone(), scalar)),
            "symbols 2\n0 C 00 0 2 n\n1 O 9A 0 0 n\n0 scalar constant\n1 used at most once\n",
        );
    }
}

#[test]
fn the_lister_knows_every_tag() {
    let unparsed = node(1, 0x00, 0, &[9], vec![]);
    let body = p(p(k(), unparsed), p(val_use(7), val_use(7)));
    lists(
        &alone(lambda(&[7], body)),
        "symbols 7\n0 A 00 0 2 y\n1 C 00 0 1 n\n2 U 00 0 1 n\n3 O 9A 0 1 n\n4 O 9A 1 1 n\n5 O 9A 1 1 n\n6 O D9 0 0 n\n\
         0 argument\n1 used at most once\n2 used at most once\n3 used at most once\n4 used at most once\n\
         5 used at most once\n6 used at most once\n",
    );
}

#[test]
fn the_lister_counts_from_the_root() {
    // The second projection is not reached, and so no use of `z`.
    lists(
        &alone(s1(z())),
        "symbols 3\n0 O FE 0 1 n\n1 O 8C 0 0 n\n2 O 8C 0 0 n\n0 used at most once\n1 used at most once\n",
    );
    // Nothing uses the definition, whose value uses `z`.
    lists(
        &alone(block(vec![(1, p(z(), z()))], n(z()))),
        "symbols 3\n0 O FE 0 1 n\n1 O 9A 0 0 n\n2 O F0 0 0 n\n0 used at most once\n2 used at most once\n",
    );
    // An environment tree uses `z` twice; the root is found in it, or uses `z` once more.
    let environment = |root| Forest {
        trees: vec![n(p(z(), z())), root],
    };
    lists(
        &environment(p(z(), z())),
        "symbols 3\n0 O FE 0 2 y\n1 O 9A 0 0 n\n2 O F0 0 0 n\n1 -31\n0 hoisted in scope 0\n1 used at most once\n",
    );
    lists(
        &environment(z()),
        "symbols 3\n0 O FE 0 0 n\n1 O 9A 0 0 n\n2 O F0 0 0 n\n0 used at most once\n",
    );
    lists(
        &environment(n(z())),
        "symbols 4\n0 O FE 0 1 n\n1 O 9A 0 0 n\n2 O F0 0 0 n\n3 O F0 0 0 n\n0 used at most once\n3 used at most once\n",
    );
}

#[test]
fn the_lister_counts_the_scopes_of_a_second_reading() {
    // Scopes 1 and 2 open in the first reading, 3 and 4 in the second, which alone the root reaches.
    let branches = if_(h(), n(z()), n(z()));
    lists(
        &alone(s1(tuple(vec![branches]))),
        "symbols 14\n0 O A3 0 1 n\n1 O FE 1 0 n\n2 O F0 1 0 n\n3 O FE 2 0 n\n4 O F0 2 0 n\n\
         5 O 95 0 0 n\n6 O 86 0 0 n\n7 O FE 3 1 n\n8 O F0 3 1 n\n9 O FE 4 1 n\n10 O F0 4 1 n\n\
         11 O 95 0 1 n\n12 O 86 0 1 n\n13 O 8C 0 0 n\n\
         0 used at most once\n7 used at most once\n8 used at most once\n9 used at most once\n10 used at most once\n\
         11 used at most once\n12 used at most once\n13 used at most once\n",
    );
}

#[test]
fn the_lister_is_lent_65_535_bytes() {
    // The constant is written twice: 30,000 bytes come in and 60,000 go out.
    let large = |length| {
        let constant = node(0, 0x00, 3, &vec![1; length], vec![]);
        alone(block(vec![(1, constant)], p(val_use(1), val_use(1))))
    };
    lists(
        &large(30_000),
        "symbols 2\n0 C 00 0 2 n\n1 O 9A 0 0 n\n0 scalar constant\n1 used at most once\n",
    );
    lists(&large(33_000), "refused 13 at 0\n");
}
