//! The parts that an unfolding has, and those that it leaves out.

use cse_reference::forest::{Forest, Tree};
use cse_reference::trees::*;
use cse_reference::unfold::{keeps_meaning, same_unfolding};

fn same(left: &Tree, right: &Tree) {
    assert_eq!(same_unfolding(left, right), Some(true));
    assert_eq!(same_unfolding(right, left), Some(true));
}

fn differ(left: &Tree, right: &Tree) {
    assert_eq!(same_unfolding(left, right), Some(false));
    assert_eq!(same_unfolding(right, left), Some(false));
}

#[test]
fn blocks_definitions_and_their_ids_go() {
    let shared = |id| block(vec![(id, n(z()))], p(val_use(id), val_use(id)));
    same(&shared(1), &p(n(z()), n(z())));
    same(&shared(1), &shared(2));
    same(&block(vec![], z()), &z());
    same(&block(vec![(1, h())], z()), &z());
    differ(&shared(1), &p(n(z()), n(h())));
    // A definition's type goes with it.
    let typed = node(10, 0xD6, 0, &[1, 0, 0, 0, 1, 1, 9], vec![z()]);
    same(&node(11, 0xD8, 0, &[], vec![typed, val_use(1)]), &z());
}

#[test]
fn a_value_sees_what_was_in_force_before_it() {
    let inner = block(vec![(1, z())], n(val_use(1)));
    same(&block(vec![(1, inner)], val_use(1)), &n(z()));
    let chain = block(
        vec![(1, z()), (2, n(val_use(1))), (3, n(val_use(2)))],
        val_use(3),
    );
    same(&chain, &n(n(z())));
}

#[test]
fn arguments_are_named_by_lambda_and_position() {
    same(&lambda(&[1], val_use(1)), &lambda(&[9], val_use(9)));
    same(&lambda(&[1, 2], val_use(2)), &lambda(&[2, 1], val_use(1)));
    differ(&lambda(&[1, 2], val_use(1)), &lambda(&[1, 2], val_use(2)));
    let outer = lambda(&[1], lambda(&[2], val_use(1)));
    let inner = lambda(&[1], lambda(&[2], val_use(2)));
    differ(&outer, &inner);
    same(&outer, &lambda(&[5], lambda(&[3], val_use(5))));
    // Siblings may bind the same id.
    same(
        &p(lambda(&[1], val_use(1)), lambda(&[1], val_use(1))),
        &p(lambda(&[1], val_use(1)), lambda(&[2], val_use(2))),
    );
}

#[test]
fn a_value_is_unfolded_at_the_depth_of_its_use() {
    let defined = lambda(
        &[1],
        block(vec![(2, n(val_use(1)))], lambda(&[3], val_use(2))),
    );
    same(&defined, &lambda(&[1], lambda(&[3], n(val_use(1)))));
    differ(&defined, &lambda(&[1], lambda(&[3], n(val_use(3)))));
    // A lambda in a value counts from where the value is used.
    let value = block(
        vec![(1, lambda(&[2], val_use(2)))],
        lambda(&[3], val_use(1)),
    );
    same(&value, &lambda(&[3], lambda(&[2], val_use(2))));
    differ(&value, &lambda(&[3], lambda(&[2], val_use(3))));
}

#[test]
fn argument_types_stay() {
    let typed = |opt: &[u8]| node(12, 0xD9, 1, &[&[7, 0, 0, 0], opt].concat(), vec![z()]);
    same(&typed(&[1, 1, 4]), &typed(&[1, 1, 4]));
    differ(&typed(&[1, 1, 4]), &typed(&[1, 1, 5]));
    differ(&typed(&[1, 1, 4]), &typed(&[0]));
    differ(&lambda(&[], z()), &lambda(&[1], z()));
    differ(&lambda(&[1, 2], z()), &lambda(&[1], z()));
}

#[test]
fn every_other_part_stays() {
    differ(&z(), &h());
    differ(&k(), &node(0, 0x00, 4, &[4, 2], vec![]));
    differ(&k(), &node(0, 0x00, 3, &[4, 3], vec![]));
    differ(&k(), &marked(k(), 1));
    differ(&marked(k(), 34), &marked(k(), 35));
    same(&marked(k(), 35), &marked(k(), 35));
    differ(
        &block(vec![(1, marked(x(), 1))], val_use(1)),
        &block(vec![(1, marked(x(), 2))], val_use(1)),
    );
    differ(
        &node(4, 0x9A, 0, &[], vec![z(), z()]),
        &node(24, 0x9A, 0, &[], vec![z(), z()]),
    );
    differ(&tuple(vec![z()]), &tuple(vec![z(), z()]));
    differ(&p(z(), h()), &p(h(), z()));
    // The ids of shapes 8 and 9 are plain literal.
    let placeholder = |id: u8| node(8, 0x73, 0, &[id, 0, 0, 0], vec![]);
    differ(&placeholder(1), &placeholder(2));
    // An argument is not a record.
    differ(&lambda(&[1], val_use(1)), &lambda(&[1], z()));
}

#[test]
fn doubling_chains_are_compared() {
    let chain = |leaf: Tree, first: u32| {
        let mut definitions = vec![(first, leaf)];
        for id in first..first + 60 {
            definitions.push((id + 1, p(val_use(id), val_use(id))));
        }
        block(definitions, val_use(first + 60))
    };
    same(&chain(z(), 1), &chain(z(), 1_000));
    differ(&chain(z(), 1), &chain(h(), 1));
}

#[test]
fn only_the_root_counts_and_both_must_be_accepted() {
    let forest = Forest {
        trees: vec![h(), z()],
    };
    let bytes = forest.to_bytes();
    assert_eq!(keeps_meaning(&bytes, &alone(z()).to_bytes()), Some(true));
    assert_eq!(keeps_meaning(&bytes, &alone(h()).to_bytes()), Some(false));
    assert_eq!(
        keeps_meaning(&bytes, &alone(val_use(1)).to_bytes()),
        Some(false)
    );
    assert_eq!(keeps_meaning(&bytes, &[]), Some(false));
    assert_eq!(keeps_meaning(&[], &alone(z()).to_bytes()), None);
}
