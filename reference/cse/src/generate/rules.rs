//! Forests in which each rule of request A.4 is met often: leaves of every kind that the gate keeps from definitions, used once
//! and more; what is shared, in thunks and lambdas too; and fields of one value that sibling scopes take, some of them used twice
//! where no definition of them is written.

use super::flat::thunk;
use super::limits::*;
use super::records::*;
use super::room::parts;
use super::Rng;
use crate::forest::{Forest, Tree};

/// No more than so many records, as copies come on top in the written tree.
const MOST: usize = 150;

/// How many parts stand inside one another.
const INSIDE: usize = 2;

const CONTEXT_PROPERTIES: [u8; 4] = [HEIGHT, 0xA4, 0xA5, 0xA7];

const GLOBAL: u8 = 0xDD;

/// A record without child that is neither of these.
const OTHER: u8 = 0xA6;

struct Maker<'a> {
    rng: &'a mut Rng,
    /// The id that was taken last; each is taken once.
    id: u32,
    /// The arguments in force.
    arguments: Vec<u32>,
}

pub(super) fn forest(rng: &mut Rng) -> Forest {
    let few = rng.range(1, 40);
    let wanted = rng.pick(&[few, few, 60, MOST]);
    let environment = rng.chance(40);
    let mut maker = Maker {
        rng,
        id: 0,
        arguments: Vec::new(),
    };
    let mut parts = parts(wanted, MOST, || maker.part(INSIDE));
    let mut trees = Vec::new();
    if environment && parts.len() > 1 {
        trees.extend(parts.pop());
        // What the environment made first, in part.
        if rng.chance(50) {
            parts.push(trees[0].clone());
        }
    }
    rng.shuffle(&mut parts);
    trees.push(one_of(parts));
    Forest { trees }
}

impl Maker<'_> {
    /// `inside` more parts may stand in this one.
    fn part(&mut self, inside: usize) -> Tree {
        let deeper = usize::from(inside > 0);
        match self.rng.weighted(&[
            (0, 24),
            (1, 18),
            (2, 18),
            (3, 12 * deeper),
            (4, 12 * deeper),
            (5, 16 * deeper),
        ]) {
            0 => self.copies(),
            1 => self.shared(inside),
            2 => self.fields(inside),
            3 => self.siblings(inside),
            4 => {
                let inner = self.part(inside - 1);
                thunk(self.rng, inner)
            }
            _ => self.lambda(inside),
        }
    }

    fn new_id(&mut self) -> u32 {
        self.id += 1;
        self.id
    }

    /// A leaf so many times, at times each under a record of its own or all by an id.
    fn copies(&mut self) -> Tree {
        let leaf = self.leaf();
        let uses = self.rng.weighted(&[(1, 25), (2, 40), (3, 25), (4, 10)]);
        match self.rng.below(4) {
            0 => {
                let id = self.new_id();
                let result = one_of(vec![value_use(id); uses]);
                block(vec![definition(id, &None, leaf)], result)
            }
            1 => {
                let items = (0..uses as u8).map(|i| select(3 + i, leaf.clone()));
                one_of(items.collect())
            }
            _ => one_of(vec![leaf; uses]),
        }
    }

    fn leaf(&mut self) -> Tree {
        let argument = self.arguments.last().copied();
        let zero_of = |opcode| tree(ZERO, opcode, Vec::new(), Vec::new());
        match self.rng.below(if argument.is_some() { 9 } else { 6 }) {
            0 => zero_of(self.rng.pick(&CONTEXT_PROPERTIES)),
            1 => zero_of(GLOBAL),
            2 => constant(self.rng.below(6) as u8, vec![self.rng.below(3) as u8]),
            3 => constant(6, vec![self.rng.below(3) as u8]),
            4 => zero_of(OTHER),
            5 => zero(),
            6 => value_use(self.rng.pick(&self.arguments)),
            _ => value_use(argument.expect("one is in force")),
        }
    }

    /// Something that a definition may be of, and that is no tuple.
    fn value(&mut self, inside: usize) -> Tree {
        match self.rng.below(5) {
            0 => self.leaf(),
            1 => negate(self.leaf()),
            // Where this is written more than once, so is the definition in it.
            2 => {
                let leaf = constant(6, vec![self.rng.below(3) as u8]);
                thunk(self.rng, plus(leaf.clone(), leaf))
            }
            3 if inside > 0 => negate(self.part(inside - 1)),
            _ => plus(self.leaf(), self.leaf()),
        }
    }

    /// One or two definitions with their uses.
    fn shared(&mut self, inside: usize) -> Tree {
        let mut definitions = Vec::new();
        let mut items = Vec::new();
        for _ in 0..self.rng.range(1, 2) {
            let value = self.value(inside);
            let id = self.new_id();
            definitions.push(definition(id, &None, value));
            let uses = self.rng.weighted(&[(0, 8), (1, 20), (2, 45), (3, 27)]);
            items.extend(vec![value_use(id); uses]);
        }
        if items.is_empty() {
            items.push(self.leaf());
        }
        self.rng.shuffle(&mut items);
        block(definitions, one_of(items))
    }

    /// Two scopes take fields of one value. Both fields' symbols are of the first, where its own field may get a definition; what
    /// the second alone takes has none.
    fn fields(&mut self, inside: usize) -> Tree {
        let value = self.value(inside);
        let id = self.new_id();
        let own = self.rng.pick(&[1, 2]);
        let other = if self.rng.chance(65) { 3 - own } else { own };
        let taken = |field| select(field, value_use(id));
        let uses = self.rng.weighted(&[(1, 15), (2, 55), (3, 30)]);
        let first = match self.rng.chance(50) {
            true => taken(own),
            false => negate(taken(own)),
        };
        let second = one_of(vec![taken(other); uses]);
        let both = match self.rng.below(4) {
            0 => tree(THREE, IF, Vec::new(), vec![value_use(id), first, second]),
            1 => {
                let opcode = self.rng.pick(&[BIN_AND, BIN_OR]);
                let left = thunk(self.rng, first);
                tree(TWO, opcode, Vec::new(), vec![left, second])
            }
            2 => tuple(vec![thunk(self.rng, first), second]),
            _ => tuple(vec![thunk(self.rng, first), thunk(self.rng, second)]),
        };
        block(vec![definition(id, &None, value)], both)
    }

    /// Equal parts in sibling scopes: symbols and definitions of their own, with the same ids.
    fn siblings(&mut self, inside: usize) -> Tree {
        let condition = self.leaf();
        let inner = self.part(inside - 1);
        let branches = vec![condition, inner.clone(), inner];
        tree(THREE, IF, Vec::new(), branches)
    }

    /// Arguments that are used or not, and parts of which some hang on one.
    fn lambda(&mut self, inside: usize) -> Tree {
        let ids: Vec<u32> = (0..self.rng.weighted(&[(0, 5), (1, 60), (2, 25), (3, 10)]))
            .map(|_| self.new_id())
            .collect();
        let outside = self.arguments.len();
        self.arguments.extend(&ids);
        let count = self.rng.range(1, 2);
        let parts = (0..count).map(|_| self.part(inside - 1)).collect();
        self.arguments.truncate(outside);
        untyped_lambda(&ids, one_of(parts))
    }
}
