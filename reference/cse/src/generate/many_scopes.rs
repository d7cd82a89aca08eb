//! Forests whose written trees are full of scopes: lambdas inside one another with next to nothing in them, mostly written
//! anew at each use, and thunks that each have a definition.

use super::flat::thunk;
use super::limits::*;
use super::records::*;
use super::Rng;
use crate::forest::{Forest, Tree};

/// So many records a written tree may have.
const MOST: usize = 256;

/// How many lambdas, or thunks, stand inside one another; a thunk may be around them.
const INSIDE: usize = 11;

/// A pair in a thunk is written as a block, a definition, its value, an operation and two uses.
const PAIR: usize = 6;

/// The records of a thunk's operation without the thunk.
const AROUND: usize = 3;

/// Copies that are written in fewer records may take more to be read.
const COPIES: usize = 40;

struct Maker<'a> {
    rng: &'a mut Rng,
    /// The id that was taken last, and the constant; each is taken once.
    id: u32,
    constant: usize,
}

/// A tree, and how many records are written for it.
struct Part {
    tree: Tree,
    written: usize,
}

pub(super) fn forest(rng: &mut Rng) -> Forest {
    let some = rng.range(MOST / 2, MOST);
    let wanted = rng.pick(&[some, MOST - 1, MOST, MOST]);
    let mut maker = Maker {
        rng,
        id: 0,
        constant: 0,
    };
    let mut left = wanted - 1;
    let mut parts = Vec::new();
    // The least part has a lambda and a leaf.
    while left > 1 {
        let part = maker.part(left);
        left -= part.written;
        parts.push(part.tree);
    }
    rng.shuffle(&mut parts);
    with_environment(rng, tuple(parts))
}

impl Maker<'_> {
    /// At most so many records, two or more.
    fn part(&mut self, most: usize) -> Part {
        match self.rng.below(20) {
            0..17 if most >= COPIES => self.copied(most),
            17 | 18 if most >= AROUND + PAIR => self.thunks(most),
            _ => {
                let tree = self.nest(most);
                let written = tree.size();
                Part { tree, written }
            }
        }
    }

    fn new_id(&mut self) -> u32 {
        self.id += 1;
        self.id
    }

    /// What no other constant has.
    fn number(&mut self) -> usize {
        self.constant += 1;
        self.constant
    }

    /// Lambdas inside one another, in at most so many records. No other nest is equal: a lambda that is used twice gets a
    /// definition.
    fn nest(&mut self, records: usize) -> Tree {
        let most = INSIDE.min(records - 1);
        let few = self.rng.range(1, most);
        let lambdas = self.rng.pick(&[few, most, most]);
        let bound: Vec<Vec<u32>> = (0..lambdas).map(|_| self.arguments()).collect();
        let ids = bound.concat();
        // Of a class whose constants are written where they are used.
        let own = constant(3, (self.number() as u16).to_le_bytes().to_vec());
        let innermost = match self.rng.below(4) {
            0 if records - lambdas > 2 => plus(own.clone(), own),
            1 if !ids.is_empty() => value_use(self.rng.pick(&ids)),
            _ => own,
        };
        let inside_out = bound.iter().rev();
        inside_out.fold(innermost, |inner, ids| untyped_lambda(ids, inner))
    }

    fn arguments(&mut self) -> Vec<u32> {
        let some = self.rng.range(3, 15);
        let count = self.rng.weighted(&[(0, 38), (1, 55), (2, 6), (some, 1)]);
        (0..count).map(|_| self.new_id()).collect()
    }

    /// The field of a nest that belongs to a thunk is written anew for each use outside it, with all that is below it; at
    /// times the field of a collection of such fields too.
    fn copied(&mut self, most: usize) -> Part {
        let nest = self.nest(most / 4);
        let mut written = nest.size();
        let mut definitions = Vec::new();
        let mut copies = nest;
        // Of the last collection two fields at least.
        let of_two = (most - 1) / 2 - 1;
        if most > 2 * COPIES && self.rng.chance(60) {
            let count = self.rng.range(2, (of_two - 1) / (written + 1));
            copies = self.fields(&mut definitions, copies, count);
            written = 1 + count * (written + 1);
        }
        let count = (most - 1) / (written + 1);
        copies = self.fields(&mut definitions, copies, count);
        Part {
            tree: block(definitions, copies),
            written: 1 + count * (written + 1),
        }
    }

    /// A collection of one field of the value so many times, after a thunk that has it first and that nothing uses. No tuple:
    /// a tuple's fields belong to where it stands.
    fn fields(&mut self, definitions: &mut Vec<Tree>, value: Tree, count: usize) -> Tree {
        let (id, unused) = (self.new_id(), self.new_id());
        let field = select(self.rng.pick(&[1, 2]), value_use(id));
        definitions.push(definition(id, &None, value));
        let first = thunk(self.rng, field.clone());
        definitions.push(definition(unused, &None, first));
        plain(SIGMA_COLLECTION, vec![field; count])
    }

    /// Thunks inside one another, each with a constant of its own that is used twice.
    fn thunks(&mut self, most: usize) -> Part {
        let count = self.rng.range(1, INSIDE.min(most / (AROUND + PAIR)));
        let mut inner = Vec::new();
        for _ in 0..count {
            let value = numbered(self.number());
            let mut items = vec![value; 2];
            items.append(&mut inner);
            inner.push(thunk(self.rng, tuple(items)));
        }
        let tree = one_of(inner);
        // Block, definition and value come on top, a value and a use being one record each.
        let written = tree.size() + 3 * count;
        Part { tree, written }
    }
}
