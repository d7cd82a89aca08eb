//! 6 to 10: trees.

use crate::*;

#[test]
fn six_trees_must_close() {
    let zero = (2, 0xFE, 0, 0, &[][..]);
    let one = (3, 0xF0, 1, 0, &[][..]);
    accepts(&raw(2, &[zero, zero]));
    refuses(&raw(1, &[zero, zero]), 6, 1);
    refuses(&raw(1, &[one, zero, zero, zero]), 6, 2);
    refuses(&raw(2, &[zero]), 6, 1);
    refuses(&raw(1, &[one]), 6, 1);
    refuses(&raw(1, &[one, one]), 6, 2);
    refuses(&raw(1, &[(16, 0x86, 65_535, 0, &[])]), 6, 1);
    // The whole count decides, not the depth of what is there.
    let deep = [one; 100];
    refuses(&raw(1, &deep), 6, 100);
}

#[test]
fn seven_depth() {
    let chain = |operations| (0..operations).fold(z(), |tree, _| n(tree));
    accepts_tree(chain(63));
    refuses_tree(chain(64), 7, 64);
    refuses_tree(chain(255), 7, 64);
    refuses_tree(p(chain(62), chain(63)), 7, 128 - 1);
    let forest = Forest {
        trees: vec![chain(63), chain(64)],
    };
    refuses(&forest.to_bytes(), 7, 64 + 64);
    // Blocks and definitions are levels: block, definition, value.
    accepts_tree(block(vec![(1, chain(61))], val_use(1)));
    refuses_tree(block(vec![(1, chain(62))], val_use(1)), 7, 64);
    // 7 before 8: the definition stands wrong, too deep is what is said.
    refuses_tree(n(def(1, chain(64))), 7, 64);
}

#[test]
fn eight_definitions_in_place() {
    refuses_tree(def(1, z()), 8, 0);
    refuses_tree(n(def(1, z())), 8, 1);
    refuses_tree(block(vec![], def(1, z())), 8, 1);
    refuses_tree(block(vec![(1, z())], def(2, z())), 8, 3);
    refuses_tree(block(vec![(1, def(2, z()))], z()), 8, 2);
    refuses_tree(lambda(&[], def(1, z())), 8, 1);
    // A child before the last that is no definition offends, not its block.
    refuses_tree(node(11, 0xD8, 0, &[], vec![z(), z()]), 8, 1);
    refuses_tree(node(11, 0xD8, 0, &[], vec![def(1, z()), z(), z()]), 8, 3);
    accepts_tree(block(vec![], z()));
    accepts_tree(block(vec![(1, z()), (2, z())], z()));
    // 8 before 9 and 10.
    refuses_tree(block(vec![(1, val_use(9)), (1, z())], def(2, z())), 8, 5);
}

#[test]
fn nine_ids_bound_while_in_force() {
    refuses_tree(block(vec![(1, z()), (1, z())], z()), 9, 3);
    refuses_tree(block(vec![(1, z())], block(vec![(1, z())], z())), 9, 4);
    refuses_tree(block(vec![(1, z())], lambda(&[1], z())), 9, 3);
    refuses_tree(lambda(&[1], block(vec![(1, z())], z())), 9, 2);
    refuses_tree(lambda(&[1], lambda(&[2, 1], z())), 9, 1);
    refuses_tree(lambda(&[1, 2, 1], z()), 9, 0);
    refuses_tree(lambda(&[1], block(vec![(2, lambda(&[1], z()))], z())), 9, 3);
    // Not in force: inside its own value, after its block, after its lambda, in another tree.
    accepts_tree(block(
        vec![(1, block(vec![(1, z())], val_use(1)))],
        val_use(1),
    ));
    accepts_tree(block(vec![(1, lambda(&[1], val_use(1)))], val_use(1)));
    let small = || block(vec![(1, z())], val_use(1));
    accepts_tree(p(small(), small()));
    accepts_tree(p(lambda(&[1], val_use(1)), lambda(&[1], val_use(1))));
    let forest = Forest {
        trees: vec![small(), small()],
    };
    accepts(&forest.to_bytes());
    // The ids of shapes 8 and 9 bind nothing.
    let placeholder = node(8, 0x73, 0, &[1, 0, 0, 0], vec![]);
    let tagged = node(9, 0x71, 0, &[1, 0, 0, 0, 0], vec![]);
    accepts_tree(lambda(&[1], p(placeholder.clone(), tagged.clone())));
    refuses_tree(p(p(placeholder, tagged), val_use(1)), 10, 4);
    // 9 before 10.
    refuses_tree(p(val_use(5), lambda(&[1, 1], z())), 9, 2);
}

#[test]
fn ten_uses_of_ids_in_force() {
    refuses_tree(val_use(1), 10, 0);
    // Its own value, after its block, after its lambda, before its definition.
    refuses_tree(block(vec![(1, n(val_use(1)))], z()), 10, 3);
    refuses_tree(p(block(vec![(1, z())], val_use(1)), val_use(1)), 10, 5);
    refuses_tree(p(lambda(&[1], val_use(1)), val_use(1)), 10, 3);
    refuses_tree(block(vec![(1, val_use(2)), (2, z())], z()), 10, 2);
    accepts_tree(block(vec![(1, z()), (2, val_use(1))], val_use(2)));
    accepts_tree(lambda(&[1], lambda(&[2], p(val_use(1), val_use(2)))));
    // The inner definition of an id inside its own value ends with its block.
    let inner = block(vec![(1, z())], val_use(1));
    refuses_tree(block(vec![(1, p(inner, val_use(1)))], z()), 10, 7);
    let forest = Forest {
        trees: vec![block(vec![(1, z())], val_use(1)), val_use(1)],
    };
    refuses(&forest.to_bytes(), 10, 4);
    // All four bytes of an id count.
    refuses_tree(lambda(&[0x0100_0001], val_use(1)), 10, 1);
}
