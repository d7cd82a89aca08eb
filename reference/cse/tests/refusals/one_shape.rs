//! 16: one opcode, one shape. Places are counted by hand, from 0 over all trees.

use crate::*;

/// ByIndex under the opcode that p has.
fn b(items: Vec<Tree>) -> Tree {
    node(24, 0x9A, 0, &[], items)
}

fn two() -> Vec<Tree> {
    vec![z(), z()]
}

fn pair() -> Tree {
    p(z(), z())
}

#[test]
fn sixteen_is_the_later_record() {
    // The forest of docs/DIFFERENCES.md: tuple, p, z, z, b.
    refuses_tree(tuple(vec![pair(), b(two())]), 16, 4);
    refuses_tree(tuple(vec![b(two()), pair()]), 16, 4);
    // Inside one another: p, b, z, z, z.
    refuses_tree(p(b(two()), z()), 16, 1);
    // Record 0 and the last one, F0 being the opcode of n.
    refuses_tree(n(node(2, 0xF0, 0, &[], vec![])), 16, 1);
    let far = tuple([vec![pair()], vec![z(); 249], vec![b(two())]].concat());
    refuses_tree(far, 16, 253);
}

#[test]
fn sixteen_the_first_of_several() {
    // A third shape comes later, and so does the first one again.
    let third = node(22, 0x9A, 0, &[], vec![]);
    refuses_tree(tuple(vec![pair(), b(two()), third, pair()]), 16, 4);
    // The shape before the last one is the first record's again: tuple, p, z, z, p, z, z, b.
    refuses_tree(tuple(vec![pair(), pair(), b(two())]), 16, 7);
    // FE and 9A have two: tuple, p, z, z, z as One, z, b.
    let one = node(3, 0xFE, 0, &[], vec![h()]);
    refuses_tree(tuple(vec![pair(), one, b(two())]), 16, 4);
}

#[test]
fn sixteen_across_trees() {
    let refuses_forest = |trees: Vec<Tree>, place| refuses(&Forest { trees }.to_bytes(), 16, place);
    // Environment tree b, z, z; then n, p, z, z.
    refuses_forest(vec![b(two()), n(pair())], 4);
    // Two environment trees, and a root without either.
    refuses_forest(vec![pair(), z(), b(two()), h()], 4);
    refuses_forest(vec![z(), tuple(vec![pair(), b(two())]), h()], 5);
}

#[test]
fn sixteen_counts_no_children_and_not_00() {
    accepts_tree(tuple(vec![b(two()), b(vec![z(), z(), z()])]));
    let unparsed = || node(1, 0x00, 0, &[7, 1], vec![]);
    accepts_tree(p(k(), unparsed()));
    accepts_tree(p(unparsed(), k()));
    // Other free counts, classes and marks are no shapes.
    accepts_tree(tuple(vec![tuple(vec![]), k(), x(), marked(x(), 2)]));
    // One shape may have several opcodes.
    accepts_tree(tuple(vec![pair(), node(4, 0x91, 0, &[], two())]));
    // The opcode beside one with two shapes.
    accepts_tree(tuple(vec![pair(), node(24, 0x9B, 0, &[], two())]));
    // 00 hides nothing: tuple, k, unparsed, p, z, z, b.
    refuses_tree(tuple(vec![k(), unparsed(), pair(), b(two())]), 16, 6);
}

#[test]
fn sixteen_of_any_free_shape() {
    // Each after a Zero: n(z) with One under FE, and so on.
    let type_9: &[u8] = &[1, 9];
    let byte_and_type: &[u8] = &[1, 1, 9];
    let id: &[u8] = &[1, 0, 0, 0];
    let id_opt: &[u8] = &[1, 0, 0, 0, 0];
    let shapes: [(u8, &[u8], usize); 18] = [
        (3, &[], 1),
        (4, &[], 2),
        (5, &[], 3),
        (6, &[], 4),
        (8, id, 0),
        (9, id_opt, 0),
        (13, &[1, 1, 0], 1),
        (14, type_9, 0),
        (15, &[1], 0),
        (18, byte_and_type, 1),
        (19, byte_and_type, 0),
        (20, byte_and_type, 0),
        (21, byte_and_type, 0),
        (22, &[], 0),
        (23, type_9, 0),
        (24, &[], 2),
        (25, type_9, 1),
        (26, &[], 1),
    ];
    for (shape, literal, children) in shapes {
        let with = |opcode| node(shape, opcode, 0, literal, vec![h(); children]);
        accepts_tree(tuple(vec![z(), with(0xFD)]));
        refuses_tree(tuple(vec![z(), with(0xFE)]), 16, 2);
        refuses_tree(tuple(vec![with(0xFE), z()]), 16, 2 + children as u32);
    }
}

#[test]
fn sixteen_after_seven_and_before_eight() {
    let chain = |operations| (0..operations).fold(z(), |tree, _| n(tree));
    // n, then a SigmaCollection under F0 at 1, and z at depth 65.
    let sigma = |inner| node(22, 0xF0, 0, &[], vec![inner]);
    refuses_tree(n(sigma(chain(61))), 16, 1);
    refuses_tree(n(sigma(chain(62))), 7, 64);
    // A definition out of place at 1: tuple, definition, p, z, z, b.
    refuses_tree(tuple(vec![def(1, pair()), b(two())]), 16, 5);
    refuses_tree(tuple(vec![def(1, pair()), b(two()), chain(65)]), 7, 71);
    // An id twice at 1, and a use not in force at 1.
    refuses_tree(tuple(vec![lambda(&[1, 1], pair()), b(two())]), 16, 5);
    refuses_tree(tuple(vec![val_use(1), pair(), b(two())]), 16, 5);
    // 5 and 6 come before: z under 95 after b, and a record left over.
    let zero = (2, 0xFE, 0, 0, &[][..]);
    let bad = (2, 0x95, 0, 0, &[][..]);
    let one = (3, 0xFE, 1, 0, &[][..]);
    refuses(&raw(2, &[one, zero, bad]), 5, 2);
    refuses(&raw(1, &[one, zero, zero]), 6, 2);
    refuses(&raw(1, &[one, zero]), 16, 1);
}
