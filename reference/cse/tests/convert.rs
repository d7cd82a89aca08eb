//! Trees to expressions and back, for each shape.

use std::collections::BTreeSet;

use cse_reference::check::accept;
use cse_reference::convert::{to_expr, to_tree};
use cse_reference::forest::Tree;
use cse_reference::trees::*;
use ergo_ser::opcode::{Expr, IrNode, Payload};

/// Some tree for each form that a literal or a child list can take, shape by shape.
fn samples() -> Vec<Tree> {
    let tpe = |length: u8| {
        let mut bytes = vec![length];
        bytes.extend((0..length).map(|byte| byte.wrapping_mul(7)));
        bytes
    };
    let joined = |parts: &[&[u8]]| parts.concat();
    let leaves = |count| vec![z(); count];
    let mut samples = vec![
        node(1, 0x00, 0, &[], vec![]),
        node(1, 0x00, 0, &[0, 255, 3], vec![]),
        z(),
        node(3, 0xF0, 0, &[], leaves(1)),
        node(4, 0x9A, 0, &[], leaves(2)),
        node(5, 0x95, 0, &[], leaves(3)),
        node(6, 0xB4, 0, &[], leaves(4)),
        lambda(&[0x0403_0201], val_use(0x0403_0201)),
        node(8, 0x73, 0, &[255, 254, 253, 252], vec![]),
        node(9, 0x71, 0, &[1, 2, 3, 4, 0], vec![]),
        node(9, 0x71, 0, &joined(&[&[1, 2, 3, 4, 1], &tpe(2)]), vec![]),
        block(vec![], z()),
        block(vec![(1, z()), (2, val_use(1))], val_use(2)),
        node(12, 0xD9, 0, &[], leaves(1)),
        node(
            12,
            0xD9,
            2,
            &joined(&[&[7, 0, 0, 0, 1], &tpe(255), &[8, 0, 0, 0, 0]]),
            vec![val_use(7)],
        ),
        lambda(&(1..=15).collect::<Vec<u32>>(), z()),
        node(13, 0xDC, 0, &[12, 1, 0], leaves(1)),
        node(
            13,
            0xDC,
            0,
            &joined(&[&[12, 1, 2], &tpe(1), &tpe(4)]),
            leaves(3),
        ),
        node(14, 0x83, 0, &tpe(1), vec![]),
        node(14, 0x83, 0, &tpe(3), leaves(5)),
        node(15, 0x85, 0, &[], vec![]),
        node(15, 0x85, 0, &[0, 1, 1, 0, 0, 0, 0, 0, 1], vec![]),
        tuple(vec![]),
        tuple(leaves(4)),
        node(18, 0xC6, 0, &joined(&[&[4], &tpe(2)]), leaves(1)),
        node(19, 0xE3, 0, &joined(&[&[255], &tpe(1)]), vec![]),
        node(20, 0xD4, 0, &joined(&[&[0], &tpe(1)]), vec![]),
        node(21, 0xD5, 0, &joined(&[&[9], &tpe(1)]), vec![]),
        node(21, 0xD5, 0, &joined(&[&[9], &tpe(1)]), leaves(1)),
        node(22, 0xEA, 0, &[], vec![]),
        node(22, 0xEA, 0, &[], leaves(2)),
        node(23, 0xDF, 0, &tpe(1), vec![]),
        node(24, 0xB2, 0, &[], leaves(2)),
        node(24, 0xB2, 0, &[], leaves(3)),
        node(25, 0x7D, 0, &tpe(1), leaves(1)),
        node(26, 0xDA, 0, &[], leaves(1)),
        node(26, 0xDA, 0, &[], leaves(3)),
    ];
    let typed_definition = node(
        10,
        0xD6,
        0,
        &joined(&[&[1, 0, 0, 0, 1], &tpe(1)]),
        leaves(1),
    );
    samples.push(node(11, 0xD8, 0, &[], vec![typed_definition, val_use(1)]));
    // Every class with every mark.
    samples.extend((0..=251).map(|aux| node(0, 0x00, aux, &[aux, 5], vec![])));
    samples.extend([0, 1, 2, 255].map(|field| select(field, z())));
    samples
}

fn shapes(tree: &Tree, found: &mut BTreeSet<u8>) {
    found.insert(tree.record.shape);
    for child in &tree.children {
        shapes(child, found);
    }
}

#[test]
fn every_shape_comes_back_as_it_was() {
    let mut found = BTreeSet::new();
    for tree in samples() {
        assert_eq!(to_tree(&to_expr(&tree)), tree);
        shapes(&tree, &mut found);
    }
    assert_eq!(found, (0..=26).collect());
}

#[test]
fn every_sample_is_accepted_and_its_bytes_read_back() {
    for tree in samples() {
        let forest = alone(tree);
        assert_eq!(accept(&forest.to_bytes()), Ok(forest));
    }
}

#[test]
fn aux_is_class_and_seven_times_mark() {
    let cases = [(0, 0, 0), (6, 6, 0), (7, 0, 1), (24, 3, 3), (251, 6, 35)];
    for (aux, class, mark) in cases {
        let Expr::Const { tpe, val } = to_expr(&node(0, 0x00, aux, &[9], vec![])) else {
            panic!("shape 0 is a constant");
        };
        assert_eq!((tpe.class(), val.mark), (class, mark), "{aux}");
        assert_eq!(val.bytes, [9]);
    }
}

#[test]
fn a_written_definition_has_no_type() {
    let value = Box::new(to_expr(&z()));
    let definition = Expr::Op(IrNode {
        opcode: 0xD6,
        payload: Payload::ValDef {
            id: 0x0102,
            tpe: None,
            rhs: value,
        },
    });
    assert_eq!(to_tree(&definition).record.literal, [2, 1, 0, 0, 0]);
}
