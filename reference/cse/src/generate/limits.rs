//! Forests whose own bytes, or whose written trees, come out near a limit of document 01.

use super::records::*;
use super::Rng;
use crate::forest::{Forest, Tree};

pub(super) const MAX_BYTES: usize = 65_535;

pub(super) fn zero() -> Tree {
    plain(ZERO, Vec::new())
}

pub(super) fn height() -> Tree {
    tree(ZERO, HEIGHT, Vec::new(), Vec::new())
}

pub(super) fn negate(a: Tree) -> Tree {
    plain(ONE, vec![a])
}

pub(super) fn plus(a: Tree, b: Tree) -> Tree {
    plain(TWO, vec![a, b])
}

pub(super) fn tuple(children: Vec<Tree>) -> Tree {
    plain(TUPLE, children)
}

/// A tree alone, or several in a tuple.
pub(super) fn one_of(mut trees: Vec<Tree>) -> Tree {
    match trees.len() {
        1 => trees.swap_remove(0),
        _ => tuple(trees),
    }
}

/// A constant that is written once however often it is used, different for each number.
pub(super) fn numbered(number: usize) -> Tree {
    constant(6, vec![7, number as u8, (number >> 8) as u8])
}

/// The root alone, or after an environment tree that no root of this file shares a part with.
pub(super) fn with_environment(rng: &mut Rng, root: Tree) -> Forest {
    let trees = match rng.chance(20) && root.size() < 256 {
        true => vec![plain(SIGMA_COLLECTION, Vec::new()), root],
        false => vec![root],
    };
    Forest { trees }
}

/// A number at most `reach` from the limit, on either side; at times one farther below.
pub(super) fn near(rng: &mut Rng, limit: usize, reach: usize) -> usize {
    match rng.chance(85) {
        true => rng.range(limit - reach, limit + reach),
        false => rng.range(limit - 10 * reach, limit + reach),
    }
}

/// A written tree near 256 records, 65,535 bytes or 64 deep, or a forest near 65,535 bytes.
pub(super) fn near_limit(rng: &mut Rng) -> Forest {
    let root = match rng.below(9) {
        0 => pairs(rng),
        1 => copied_projections(rng),
        2 => defined_chain(rng),
        3 => wrapped_pair(rng),
        4 => nested_blocks(rng),
        5 => repeated_constant(rng),
        6 => doubling(rng),
        // No byte is left for an environment tree.
        7 => return full_forest(rng),
        _ => return hoisting_in_full_forest(rng),
    };
    with_environment(rng, root)
}

// A written tree near 256 records.

/// Each pair p(v,v) of equal values is written as a definition and two uses: with a value of r
/// records, r + 4 written records come from 2r + 1 read.
fn pairs(rng: &mut Rng) -> Tree {
    let written = near(rng, 256, 8);
    let (mut count, mut read) = (2, 1);
    let mut children = Vec::new();
    loop {
        let records = rng.range(1, 2);
        if count + records + 4 > written || read + 2 * records + 1 > 250 {
            break;
        }
        let mut value = numbered(children.len());
        if records == 2 {
            value = negate(value);
        }
        children.push(plus(value.clone(), value));
        count += records + 4;
        read += 2 * records + 1;
    }
    // A context property is written where it is used: one record each.
    while count < written && read < 255 {
        let at = rng.below(children.len() + 1);
        children.insert(at, height());
        count += 1;
        read += 1;
    }
    tuple(children)
}

/// A projection that belongs to the first branch is written anew for each use in the second.
fn copied_projections(rng: &mut Rng) -> Tree {
    let written = near(rng, 256, 8);
    let length = rng.range(3, 30);
    let fields: Vec<u8> = (0..length).map(|_| rng.pick(&[1, 2])).collect();
    let chain = |of: Tree| fields.iter().fold(of, |input, field| select(*field, input));
    let left = written - 10 - length;
    let copies = left / (length + 1);
    let mut children = vec![value_use(2); copies];
    for _ in 0..left % (length + 1) {
        let at = rng.below(children.len() + 1);
        children.insert(at, height());
    }
    let second = block(
        vec![definition(2, &None, chain(value_use(1)))],
        tuple(children),
    );
    let branches = vec![value_use(1), chain(value_use(1)), second];
    block(vec![definition(1, &None, zero())], plain(THREE, branches))
}

/// A projection that belongs to a thunk is written anew for each use outside it, with all that is
/// below it. So each step from one projection to the next doubles what is written.
fn doubling(rng: &mut Rng) -> Tree {
    let steps = rng.pick(&[2, 3, 4, 4, 4, 5, 5, 5, 6, 8, 12, 18]);
    let mut definitions = vec![definition(1, &None, zero())];
    let mut uses = Vec::new();
    for step in 0..steps {
        let (input, thunk, sum) = (2 * step + 1, 2 * step + 2, 2 * step + 3);
        let projection = || select(1, value_use(input));
        let first = tree(TWO, BIN_AND, Vec::new(), vec![height(), projection()]);
        definitions.push(definition(thunk, &None, first));
        definitions.push(definition(sum, &None, plus(projection(), projection())));
        // The projection belongs to its thunk also where nothing uses the thunk.
        if rng.chance(70) {
            uses.push(value_use(thunk));
        }
    }
    uses.push(value_use(2 * steps + 1));
    for _ in 0..rng.below(12) {
        let at = rng.below(uses.len() + 1);
        uses.insert(at, height());
    }
    block(definitions, tuple(uses))
}

// A written tree near 64 deep.

/// Definitions used once are written in place, so the chain of them becomes one deep tree.
fn defined_chain(rng: &mut Rng) -> Tree {
    let length = near(rng, 63, 5);
    let mut definitions = vec![definition(1, &None, zero())];
    for i in 2..=length as u32 {
        let before = value_use(i - 1);
        let value = match rng.below(6) {
            0 => select(3, before),
            1 => select(1, before),
            2 => tuple(vec![before]),
            _ => negate(before),
        };
        definitions.push(definition(i, &None, value));
    }
    block(definitions, value_use(length as u32))
}

/// A pair of equal leaves under many records: the block that it needs adds a level.
fn wrapped_pair(rng: &mut Rng) -> Tree {
    let above = rng.range(56, 62);
    let pair = plus(numbered(0), numbered(0));
    (0..above).fold(pair, |inner, _| match rng.below(3) {
        0 => tuple(vec![height(), inner]),
        1 => plain(SIGMA_COLLECTION, vec![inner]),
        _ => negate(inner),
    })
}

/// Lambdas inside one another, each with a pair of its own: every body becomes a block.
fn nested_blocks(rng: &mut Rng) -> Tree {
    let lambdas = rng.range(3, 10);
    let mut inner = height();
    for id in (1..=lambdas as u32).rev() {
        let twice = plus(negate(value_use(id)), negate(value_use(id)));
        inner = untyped_lambda(&[id], plus(twice, inner));
    }
    let most = 64 - inner.depth();
    let above = rng.range(most.saturating_sub(12), most);
    (0..above).fold(inner, |inner, _| negate(inner))
}

// Near 65,535 bytes.

/// The bytes of a forest of so many records with so many literal bytes.
fn bytes(records: usize, literals: usize) -> usize {
    4 + 9 * records + literals
}

/// A constant of a primitive class is written at each use: the forest holds its bytes once, the
/// written tree many times.
fn repeated_constant(rng: &mut Rng) -> Tree {
    let written = near(rng, MAX_BYTES, 6);
    let uses = rng.pick(&[2, 3, 4, 7, 20, 60, 200, 240]);
    let literals = written - bytes(uses + 2, 0);
    let value = constant(rng.below(6) as u8, vec![1; literals / uses]);
    let mut children = vec![value_use(9); uses];
    children.push(unparsed(vec![2; literals % uses]));
    block(vec![definition(9, &None, value)], tuple(children))
}

/// A forest that has all the bytes it may, or few less.
fn full_forest(rng: &mut Rng) -> Forest {
    let read = MAX_BYTES - rng.pick(&[0, 0, 0, 1, 2, 300]);
    let literals = read - bytes(4, 0);
    let first = rng.range(0, literals - 1);
    let root = vec![
        unparsed(rng.bytes(first)),
        constant(6, rng.bytes(literals - first)),
    ];
    Forest {
        trees: vec![height(), tuple(root)],
    }
}

/// A nearly full forest in which a pair is hoisted: a block, a definition and two uses more, less a
/// constant. So the written tree is longer or shorter than the forest by the constant's length.
fn hoisting_in_full_forest(rng: &mut Rng) -> Forest {
    let read = MAX_BYTES - rng.range(0, 3) - if rng.chance(20) { 13 } else { 0 };
    // Read: tuple, twice the constant, filler. Written: 9 bytes each for block, definition and one
    // use more, 13 literal bytes for definition and uses, and the constant once less.
    let constant_length = rng.range(34, 46);
    let value = constant(6, vec![3; constant_length]);
    let filler = read - bytes(4, 2 * constant_length);
    let root = tuple(vec![value.clone(), value, unparsed(vec![4; filler])]);
    Forest { trees: vec![root] }
}

// Scopes.

/// Up to 63 scopes, each the only way to the next.
pub(super) fn nested(rng: &mut Rng) -> Forest {
    let scopes = match rng.chance(40) {
        true => 63,
        false => rng.range(13, 63),
    };
    let root = scope(rng, scopes, &mut Vec::new());
    Forest { trees: vec![root] }
}

/// So many scopes inside one another.
pub(super) fn scope(rng: &mut Rng, left: usize, in_force: &mut Vec<u32>) -> Tree {
    if left == 0 {
        return scope_leaf(rng, in_force);
    }
    if rng.chance(30) {
        let id = in_force.len() as u32 + 1;
        in_force.push(id);
        let body = scope(rng, left - 1, in_force);
        in_force.pop();
        return untyped_lambda(&[id], body);
    }
    let eager = scope_leaf(rng, in_force);
    let other = scope_leaf(rng, in_force);
    let inner = scope(rng, left - 1, in_force);
    let (shape, opcode, children) = match rng.below(4) {
        0 => (TWO, BIN_AND, vec![eager, inner]),
        1 => (TWO, BIN_OR, vec![eager, inner]),
        2 => (THREE, IF, vec![eager, other, inner]),
        _ => (THREE, IF, vec![eager, inner, other]),
    };
    tree(shape, opcode, Vec::new(), children)
}

fn scope_leaf(rng: &mut Rng, in_force: &[u32]) -> Tree {
    match in_force.is_empty() || rng.chance(50) {
        true => rng.pick(&[zero(), height(), numbered(0), numbered(1)]),
        false => value_use(rng.pick(in_force)),
    }
}
