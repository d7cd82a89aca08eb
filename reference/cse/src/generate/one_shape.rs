//! Forests that come near refusal 16 and are accepted: each opcode under any one shape that document 01 leaves free to it, 00
//! under both of its shapes, ByIndex with two and with three children.

use super::records::*;
use super::{builder, Kind, Rng};
use crate::forest::{Forest, Tree};

const MAX_RECORDS: usize = 256;

/// The records that a ByIndex with two children and one with three add to the leaves that they take the place of.
const ADDED: usize = 5;

pub(super) fn forest(rng: &mut Rng) -> Forest {
    let kind = rng.weighted(&[
        (Kind::Small, 20),
        (Kind::Medium, 35),
        (Kind::Unreached, 20),
        (Kind::Blocks, 15),
        (Kind::Wide, 10),
    ]);
    let mut forest = builder::forest(Rng::new(rng.bits()), kind);
    put_near_misses(rng, &mut forest);
    let opcodes = shuffled_opcodes(rng);
    for record in forest.records_mut() {
        record.opcode = opcodes[usize::from(record.opcode)];
    }
    forest
}

/// Puts what is no fault in place of some leaves, as far as there are any and there is room.
fn put_near_misses(rng: &mut Rng, forest: &mut Forest) {
    let room = forest.size() + ADDED <= MAX_RECORDS;
    let mut leaves = leaves(forest);
    rng.shuffle(&mut leaves);
    let mut pairs = leaves.chunks_exact_mut(2);
    if room && rng.chance(90) {
        if let Some([two, three]) = pairs.next() {
            put_under(BY_INDEX, two, 2);
            put_under(BY_INDEX, three, 3);
        }
    }
    if let Some([constants, others]) = pairs.next() {
        **constants = constant(rng.pick(&[3, 6]), vec![7, 1]);
        **others = unparsed(rng.pick(&[vec![], vec![7, 1]]));
    }
}

/// Puts so many copies of a tree under a record of that shape.
fn put_under(shape: u8, tree: &mut Tree, copies: usize) {
    *tree = plain(shape, vec![tree.clone(); copies]);
}

/// The records without children.
fn leaves(forest: &mut Forest) -> Vec<&mut Tree> {
    fn walk<'a>(tree: &'a mut Tree, leaves: &mut Vec<&'a mut Tree>) {
        match tree.children.is_empty() {
            true => leaves.push(tree),
            false => tree
                .children
                .iter_mut()
                .for_each(|child| walk(child, leaves)),
        }
    }
    let mut leaves = Vec::new();
    for tree in &mut forest.trees {
        walk(tree, &mut leaves);
    }
    leaves
}

/// Whether a forest has 00 under both of its shapes, and ByIndex with two and with three children under one opcode: counted as
/// faults, either would refuse it.
pub fn near_misses(forest: &Forest) -> bool {
    fn walk(tree: &Tree, found: &mut Vec<(u8, u8, usize)>) {
        found.push((tree.record.shape, tree.record.opcode, tree.children.len()));
        tree.children.iter().for_each(|child| walk(child, found));
    }
    let mut found = Vec::new();
    forest.trees.iter().for_each(|tree| walk(tree, &mut found));
    let has = |shape| found.iter().any(|&(other, ..)| other == shape);
    let three = |&(shape, opcode, count): &(u8, u8, usize)| {
        shape == BY_INDEX && count == 3 && found.contains(&(BY_INDEX, opcode, 2))
    };
    has(CONST) && has(UNPARSED) && found.iter().any(three)
}
