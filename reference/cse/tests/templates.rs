//! Filling over bytes, a template's values, and the line of the program `template`.

use cse_reference::forest::{Forest, Tree};
use cse_reference::generate::{Family, Kind, Way};
use cse_reference::notation::parse;
use cse_reference::oracle::answer;
use cse_reference::template::{fill, line, values, Filling, TwoValues};
use cse_reference::trees::{alone, marked, n, p, tuple, x, z};

/// The aux of `x` with a mark.
fn of(mark: u8) -> u8 {
    6 + 7 * mark
}

fn bytes(text: &str) -> Vec<u8> {
    parse(text).unwrap().to_bytes()
}

/// `x` with a mark and another literal.
fn valued(mark: u8, literal: &[u8]) -> Tree {
    let mut constant = marked(x(), mark);
    constant.record.literal = literal.to_vec();
    constant
}

#[test]
fn a_filled_forest_by_hand() {
    let forest = [
        &[1, 0, 3, 0][..],
        &[16, 0, 5, 0, 21, 0, 7, 0, 28, 0, 7, 0],
        &[4, 0x9A, 2, 0, 0],
        &[0, 0, 0, 0, 13, 7, 1],
        &[0, 0, 0, 0, 3, 4, 2],
    ]
    .concat();
    assert_eq!(forest, bytes("p(x:1,k)"));
    let filled = [
        &[1, 0, 3, 0][..],
        &[16, 0, 5, 0, 21, 0, 8, 0, 29, 0, 7, 0],
        &[4, 0x9A, 2, 0, 0],
        &[0, 0, 0, 0, 13, 9, 8, 9],
        &[0, 0, 0, 0, 3, 4, 2],
    ]
    .concat();
    let value = vec![9, 8, 9];
    assert_eq!(fill(&forest, &[(13, value.clone())].into()), filled);
    // What has no mark is no parameter, and no other shape has one: a lambda's aux counts its arguments.
    assert_eq!(fill(&forest, &[(3, value.clone())].into()), forest);
    let lambda = bytes("L1,2,3,4,5,6,7,8.z");
    assert_eq!(fill(&lambda, &[(8, value)].into()), lambda);
}

/// The same over trees.
fn filled_trees(forest: &Forest, filling: &Filling) -> Forest {
    let mut forest = forest.clone();
    for constant in forest.constants_mut() {
        if let (1.., Some(value)) = (constant.mark(), filling.get(&constant.aux)) {
            constant.literal.clone_from(value);
        }
    }
    forest
}

#[test]
fn bytes_are_filled_as_trees_are() {
    for kind in Kind::ALL {
        for marked in [false, true] {
            let family = Family { kind, marked };
            for (seed, way) in (0..60).flat_map(|seed| Way::ALL.map(|way| (seed, way))) {
                let template = family.template(seed);
                let filling = way.filling(seed, &template);
                let (given, filled) = (template.to_bytes(), filled_trees(&template, &filling));
                assert_eq!(fill(&given, &filling), filled.to_bytes());
                assert_eq!(fill(&given, &values(&given).unwrap()), given);
            }
        }
    }
}

/// The filled forest's written tree, and the written tree filled.
fn written(text: &str, filling: &Filling) -> (Vec<u8>, Vec<u8>) {
    let tree = |forest: &[u8]| answer(forest, 65_535, 16_384).unwrap().tree;
    let forest = bytes(text);
    (tree(&fill(&forest, filling)), fill(&tree(&forest), filling))
}

#[test]
fn equal_values_of_two_parameters_are_no_definition() {
    let equal = [(of(1), vec![100]), (of(2), vec![100])].into();
    let (filled, tree) = written("p(x:1,x:2)", &equal);
    assert_eq!(filled, tree);
    let value = |mark| valued(mark, &[100]);
    assert_eq!(filled, alone(p(value(1), value(2))).to_bytes());
    // One parameter twice is one, whatever its value.
    let (filled, tree) = written("p(p(x:1,x:2),p(x:1,x:2))", &equal);
    assert_eq!(filled, tree);
}

#[test]
fn values_are_one_for_each_aux() {
    let template = bytes("tuple(x:1,x:2,k:1,x,x:1)");
    let expected = [(13, vec![7, 1]), (20, vec![7, 1]), (10, vec![4, 2])];
    assert_eq!(values(&template), Ok(expected.into()));
    assert_eq!(values(&bytes("p(x,k)")), Ok(Filling::new()));
}

#[test]
fn the_first_record_with_another_value() {
    let second = |literals: &[(u8, &[u8])]| {
        let items = literals.iter();
        let items = items.map(|(mark, literal)| valued(*mark, literal));
        values(&alone(tuple(items.collect())).to_bytes()).err()
    };
    let found = |mark, place| Some(TwoValues { mark, place });
    assert_eq!(second(&[(5, &[1]), (5, &[1]), (5, &[2])]), found(5, 3));
    // A beginning of a literal is another one, either way.
    assert_eq!(second(&[(35, &[1]), (35, &[1, 0])]), found(35, 2));
    assert_eq!(second(&[(35, &[1, 0]), (35, &[1])]), found(35, 2));
    // Of several the first to stand there, whichever parameter stood first.
    assert_eq!(
        second(&[(1, &[1]), (2, &[2]), (2, &[3]), (1, &[3])]),
        found(2, 3)
    );
    assert_eq!(second(&[(1, &[1]), (2, &[2]), (0, &[1]), (0, &[2])]), None);
}

#[test]
fn lines() {
    let says = |forest: &[u8], expected: &str| assert_eq!(line(forest).unwrap(), expected);
    says(
        &bytes("p(x:1,x:2)"),
        "template: 0 definitions, 2 parameters\n",
    );
    says(
        &bytes("p(x:1,x:1)"),
        "template: 1 definitions, 1 parameters\n",
    );
    says(&bytes("z"), "template: 0 definitions, 0 parameters\n");
    // Parameters of an environment tree count, and class and mark tell them apart; definitions are those that are written.
    says(
        &bytes("k:1 | x:1 | {1=z; L2.p(n(2),n(2))}"),
        "template: 1 definitions, 2 parameters\n",
    );
    let two = alone(p(x(), tuple(vec![valued(5, &[1]), z(), valued(5, &[2])])));
    says(&two.to_bytes(), "two values of mark 5 at 5\n");
    // An environment tree stands first.
    let across = Forest {
        trees: vec![valued(5, &[1]), n(valued(5, &[2]))],
    };
    says(&across.to_bytes(), "two values of mark 5 at 2\n");
    // The call's refusal comes first.
    let mut refused = two.to_bytes();
    refused.pop();
    says(&refused, "refused 3 at 5\n");
    says(&[], "refused 2 at 0\n");
}
