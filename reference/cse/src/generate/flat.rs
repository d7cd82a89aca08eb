//! Forests whose free lists are long: a wide tuple of outer leaves in a scope, under records that all have its list, and
//! behind it scopes inside one another, whose lists come later.

use super::builder;
use super::limits::*;
use super::records::*;
use super::{Kind, Rng};
use crate::forest::{Forest, Tree};

/// So many entries of free lists the main call stores.
const STORED: usize = 4_096;

/// The kinds of forests that stand behind a flat part.
const BEHIND: [Kind; 5] = [
    Kind::Thunks,
    Kind::Projections,
    Kind::Lambdas,
    Kind::Blocks,
    Kind::Medium,
];

/// The id of a lambda that holds a flat part.
const ARGUMENT: u32 = 1_000;

/// Leaves of the outermost scope, then a thunk, a flat part over the leaves and what stands behind it, at times in a scope
/// of their own. So the first list is stored, and those of the last part mostly are not.
pub(super) fn forest(rng: &mut Rng) -> Forest {
    let flat = Flat::drawn(rng);
    let mut children = flat.leaves();
    let first = negate(children[0].clone());
    let mut inner = vec![thunk(rng, first), flat.tree(rng)];
    inner.extend(flat.rest());
    // Something to define around all this, as otherwise no list may be needed.
    if rng.chance(70) {
        children.push(plus(zero(), zero()));
    }
    // Of 256 records, what two tuples and a thunk around them leave.
    let taken: usize = children.iter().chain(&inner).map(Tree::size).sum();
    let records = 250 - taken;
    let mut trees = Vec::new();
    if rng.chance(65) {
        // A scope takes at most three records, the last one more.
        let most = (records / 3 - 1).min(56);
        let scopes = match rng.chance(40) {
            true => most,
            false => rng.range(3, most),
        };
        inner.push(scope(rng, scopes, &mut Vec::new()));
    } else {
        let kind = rng.pick(&BEHIND);
        let mut behind = builder::forest(Rng::new(rng.bits()), kind);
        if behind.size() > records || behind.to_bytes().len() > MAX_BYTES / 2 {
            let pair = plus(zero(), zero());
            behind.trees = vec![thunk(rng, pair)];
        }
        inner.extend(behind.trees.pop());
        trees = behind.trees;
    }
    match rng.chance(25) {
        true => children.push(thunk(rng, tuple(inner))),
        false => children.extend(inner),
    }
    trees.push(tuple(children));
    Forest { trees }
}

/// A flat part: its scope has a tuple of `width` leaves under `records` records, and is read `2 ^ doublings` times, each
/// time with symbols of its own. So its free lists have `width * (records + 1)` entries each time.
struct Flat {
    width: usize,
    records: usize,
    doublings: usize,
    /// The entries of one list more.
    rest: usize,
    /// Whether the leaves get definitions.
    defined: bool,
}

impl Flat {
    fn drawn(rng: &mut Rng) -> Flat {
        // Few lists are left to fill up, or not quite, so that the last that fits is one of those behind.
        let near = rng.chance(40);
        let (doublings, width) = match near {
            true => rng.pick(&[(2, 30), (2, 31), (2, 32), (3, 15), (3, 16), (3, 17)]),
            false => match rng.range(1, 3) {
                1 => (1, rng.range(46, 52)),
                2 => (2, rng.range(24, 32)),
                _ => (3, rng.range(13, 20)),
            },
        };
        let lists = STORED / (width << doublings);
        let left = STORED % (width << doublings);
        let (records, rest) = match near {
            true => (lists - 1, rng.range(0, (left + 2).min(width))),
            false => (lists + rng.range(0, 5), 0),
        };
        // A leaf that gets a definition takes four records of the written tree, another one two.
        let defined = match doublings {
            3 => rng.chance(60),
            2 => rng.chance(30),
            _ => false,
        };
        Flat {
            width,
            records,
            doublings,
            rest,
            defined,
        }
    }

    /// The leaves, each with a symbol of the outermost scope.
    fn leaves(&self) -> Vec<Tree> {
        let leaf = |number: usize| match self.defined {
            true => numbered(number),
            // A constant of a primitive class is written where it is used.
            false => constant(3, vec![6, number as u8]),
        };
        (0..self.width).map(leaf).collect()
    }

    /// The scope with the tuple, read as often as it has to be.
    fn tree(&self, rng: &mut Rng) -> Tree {
        let mut leaves = self.leaves();
        rng.shuffle(&mut leaves);
        let in_lambda = rng.chance(30);
        if in_lambda {
            // What hangs on the argument stands in the lambda.
            leaves.push(value_use(ARGUMENT));
        }
        let body = (0..self.records).fold(tuple(leaves), |inner, _| match rng.below(4) {
            0 => plain(SIGMA_COLLECTION, vec![inner]),
            1 => select(3, inner),
            2 => plain(FUNC_APPLY, vec![inner]),
            _ => negate(inner),
        });
        let scope = match in_lambda {
            true => untyped_lambda(&[ARGUMENT], body),
            false => thunk(rng, body),
        };
        (0..self.doublings).fold(scope, |inner, _| {
            select(rng.pick(&[1, 2]), tuple(vec![inner]))
        })
    }

    /// The list more, if there is one.
    fn rest(&self) -> Option<Tree> {
        let leaves = self.leaves()[..self.rest].to_vec();
        let operands = vec![height(), tuple(leaves)];
        (self.rest > 0).then(|| tree(TWO, BIN_OR, Vec::new(), operands))
    }
}

pub(super) fn thunk(rng: &mut Rng, inner: Tree) -> Tree {
    let (shape, opcode, children) = match rng.below(4) {
        0 => (TWO, BIN_AND, vec![height(), inner]),
        1 => (TWO, BIN_OR, vec![height(), inner]),
        2 => (THREE, IF, vec![height(), height(), inner]),
        _ => (THREE, IF, vec![height(), inner, height()]),
    };
    tree(shape, opcode, Vec::new(), children)
}
