//! Where the records of a forest stand, and how to change the tree at one of them.

use crate::forest::{Forest, Tree};
use crate::generate::records::*;
use crate::generate::Rng;

/// A tree of one record.
pub(super) fn leaf(rng: &mut Rng) -> Tree {
    rng.pick(&[plain(ZERO, Vec::new()), constant(6, vec![7, 1])])
}

/// No limit but that of sixteen bits.
pub(super) const MANY: usize = 65_535;

/// The least and the most children of a shape.
pub(super) fn child_counts(shape: u8) -> (usize, usize) {
    match shape {
        ONE | VAL_DEF | FUNC_VALUE | SELECT_FIELD | EXTRACT_REGISTER_AS | NUMERIC_CAST => (1, 1),
        TWO => (2, 2),
        THREE => (3, 3),
        FOUR => (4, 4),
        BLOCK_VALUE | METHOD_CALL | FUNC_APPLY => (1, MANY),
        CONCRETE_COLLECTION | TUPLE | SIGMA_COLLECTION => (0, MANY),
        DESERIALIZE_REGISTER => (0, 1),
        BY_INDEX => (2, 3),
        _ => (0, 0),
    }
}

/// A record of a forest, at its number from 0.
pub(super) struct Node {
    /// The number of its tree.
    pub(super) tree: usize,
    /// A root has 1.
    pub(super) depth: usize,
    /// The levels of its subtree.
    pub(super) height: usize,
    pub(super) size: usize,
    pub(super) shape: u8,
    pub(super) children: usize,
    /// The shape of the record around it.
    pub(super) parent: Option<u8>,
    /// What is in force where it stands.
    pub(super) in_force: Vec<u32>,
}

/// The records of an accepted forest, in order.
pub(super) fn nodes(forest: &Forest) -> Vec<Node> {
    fn walk(tree: &Tree, start: Node, nodes: &mut Vec<Node>) {
        let (number, depth) = (start.tree, start.depth + 1);
        let mut in_force = start.in_force.clone();
        nodes.push(start);
        if tree.record.shape == FUNC_VALUE {
            in_force.extend(argument_ids(&tree.record));
        }
        for child in &tree.children {
            let parent = Some(tree.record.shape);
            walk(child, node(child, number, depth, parent, &in_force), nodes);
            if child.record.shape == VAL_DEF {
                in_force.push(first_id(&child.record));
            }
        }
    }
    fn node(tree: &Tree, number: usize, depth: usize, parent: Option<u8>, ids: &[u32]) -> Node {
        Node {
            tree: number,
            depth,
            height: tree.depth(),
            size: tree.size(),
            shape: tree.record.shape,
            children: tree.children.len(),
            parent,
            in_force: ids.to_vec(),
        }
    }
    let mut nodes = Vec::new();
    for (number, tree) in forest.trees.iter().enumerate() {
        walk(tree, node(tree, number, 1, None, &[]), &mut nodes);
    }
    nodes
}

/// The number of some record for which the condition holds.
pub(super) fn pick_where(
    rng: &mut Rng,
    nodes: &[Node],
    holds: impl Fn(&Node) -> bool,
) -> Option<usize> {
    let numbers: Vec<usize> = (0..nodes.len()).filter(|i| holds(&nodes[*i])).collect();
    (!numbers.is_empty()).then(|| rng.pick(&numbers))
}

/// The tree at a record's number.
pub(super) fn tree_at(forest: &mut Forest, number: usize) -> &mut Tree {
    fn within(tree: &mut Tree, number: usize) -> &mut Tree {
        match number {
            0 => tree,
            _ => among(&mut tree.children, number - 1),
        }
    }
    fn among(trees: &mut [Tree], mut number: usize) -> &mut Tree {
        for tree in trees {
            let size = tree.size();
            if number < size {
                return within(tree, number);
            }
            number -= size;
        }
        panic!("no record of that number")
    }
    among(&mut forest.trees, number)
}

/// Puts another tree in place of the one at a record's number, made from it.
pub(super) fn replace(forest: &mut Forest, number: usize, make: impl FnOnce(Tree) -> Tree) {
    let slot = tree_at(forest, number);
    let tree = std::mem::replace(slot, plain(TUPLE, Vec::new()));
    *slot = make(tree);
}

/// The ids that the forest binds anywhere.
pub(super) fn bound_ids(forest: &Forest) -> Vec<u32> {
    fn walk(tree: &Tree, ids: &mut Vec<u32>) {
        match tree.record.shape {
            VAL_DEF => ids.push(first_id(&tree.record)),
            FUNC_VALUE => ids.extend(argument_ids(&tree.record)),
            _ => {}
        }
        for child in &tree.children {
            walk(child, ids);
        }
    }
    let mut ids = Vec::new();
    for tree in &forest.trees {
        walk(tree, &mut ids);
    }
    ids
}

/// An id that the forest binds nowhere.
pub(super) fn unbound_id(forest: &Forest, first: u32) -> u32 {
    let bound = bound_ids(forest);
    let mut id = first;
    while bound.contains(&id) {
        id = id.wrapping_add(1);
    }
    id
}
