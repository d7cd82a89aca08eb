//! Forests whose definitions save many bytes, few or none: large constants that are shared, constants of about the size at
//! which a definition saves nothing, and definitions in values, thunks and lambdas, which often get the same ids; some of them
//! are used once.

use super::flat::thunk;
use super::limits::*;
use super::records::*;
use super::room::parts;
use super::Rng;
use crate::forest::{Forest, Tree};

/// No more than so many records, as the definitions of copies that are read come on top in the written tree.
const MOST: usize = 200;

/// All literals together: their definitions, and other copies in thunks, leave room in the written tree.
const LITERALS: usize = 40_000;

/// How many parts stand inside one another.
const INSIDE: usize = 2;

struct Maker<'a> {
    rng: &'a mut Rng,
    /// The id that was taken last; each is taken once.
    id: u32,
    /// The arguments in force.
    arguments: Vec<u32>,
    /// What is left of all literals' bytes.
    left: usize,
}

pub(super) fn forest(rng: &mut Rng) -> Forest {
    if rng.chance(6) {
        return full(rng);
    }
    let few = rng.range(1, 40);
    let wanted = rng.pick(&[few, few, 60, 120, MOST]);
    let environment = rng.chance(20);
    let mut maker = Maker {
        rng,
        id: 0,
        arguments: Vec::new(),
        left: LITERALS,
    };
    let mut parts = parts(wanted, MOST, || maker.part(INSIDE));
    let mut trees = Vec::new();
    if environment && parts.len() > 1 {
        trees.extend(parts.pop());
    }
    trees.push(one_of(parts));
    Forest { trees }
}

/// All bytes that a forest may have or few less, in a constant with so many uses; with the most it saves the most bytes.
fn full(rng: &mut Rng) -> Forest {
    let uses = rng.pick(&[2, 3, 30, 251, 252]);
    // Header, block, definition, constant and tuple, and the uses.
    let others = 4 + 9 + 14 + 9 + 9 + 13 * uses;
    let value = constant(6, vec![1; MAX_BYTES - others - rng.pick(&[0, 1, 5_000])]);
    let root = block(
        vec![definition(9, &None, value)],
        tuple(vec![value_use(9); uses]),
    );
    Forest { trees: vec![root] }
}

impl Maker<'_> {
    /// `inside` more parts may stand in this one.
    fn part(&mut self, inside: usize) -> Tree {
        let deeper = usize::from(inside > 0);
        match self
            .rng
            .weighted(&[(0, 50), (1, 12), (2, 20 * deeper), (3, 18 * deeper)])
        {
            0 => self.shared(inside),
            1 => self.used_once(),
            2 => {
                let inner = self.part(inside - 1);
                thunk(self.rng, inner)
            }
            _ => self.lambda(inside),
        }
    }

    fn new_id(&mut self) -> u32 {
        self.id += 1;
        self.id
    }

    /// Up to three definitions, at times with a use of the one before in the value; or copies of one value.
    fn shared(&mut self, inside: usize) -> Tree {
        let count = self.rng.weighted(&[(1, 60), (2, 25), (3, 15)]);
        let mut definitions = Vec::new();
        let mut items = Vec::new();
        let mut before = None;
        for _ in 0..count {
            let uses = self.uses();
            let mut value = self.value(uses, inside);
            if count == 1 && value.size() == 1 && self.rng.chance(40) && self.afford(uses, &value) {
                return tuple(vec![value; uses]);
            }
            if let Some(id) = before.filter(|_| self.rng.chance(50)) {
                value = plus(value_use(id), value);
            }
            let id = self.new_id();
            before = Some(id);
            definitions.push(definition(id, &None, value));
            items.extend(vec![value_use(id); uses]);
        }
        self.rng.shuffle(&mut items);
        block(definitions, tuple(items))
    }

    fn uses(&mut self) -> usize {
        let some = self.rng.range(5, 12);
        let many = self.rng.range(20, 40);
        self.rng
            .weighted(&[(2, 45), (3, 22), (4, 15), (some, 14), (many, 4)])
    }

    /// The field of a value whose symbol belongs to the first branch: its definition there has one use.
    fn used_once(&mut self) -> Tree {
        let value = self.value(2, 0);
        let id = self.new_id();
        let field = self.rng.pick(&[1, 2]);
        let taken = || select(field, value_use(id));
        let first = match self.rng.chance(50) {
            true => taken(),
            false => negate(taken()),
        };
        let branches = tree(THREE, IF, Vec::new(), vec![value_use(id), first, taken()]);
        block(vec![definition(id, &None, value)], branches)
    }

    /// What hangs on the argument gets its definition in the lambda.
    fn lambda(&mut self, inside: usize) -> Tree {
        let id = self.new_id();
        self.arguments.push(id);
        let mut parts = vec![self.shared(inside - 1)];
        if self.rng.chance(40) {
            parts.push(self.part(inside - 1));
        }
        self.arguments.pop();
        let body = match parts.len() {
            1 => parts.swap_remove(0),
            _ => tuple(parts),
        };
        untyped_lambda(&[id], body)
    }

    /// What is to be used so many times.
    fn value(&mut self, uses: usize, inside: usize) -> Tree {
        let deeper = usize::from(inside > 0);
        let value = match self.rng.weighted(&[
            (0, 35),
            (1, 35),
            (2, 10),
            (3, 12 * deeper),
            (4, 12 * deeper),
        ]) {
            0 => self.about_even(uses),
            1 => self.of_any_size(),
            2 => zero(),
            3 => {
                let inner = self.shared(inside - 1);
                thunk(self.rng, inner)
            }
            _ => self.lambda(inside),
        };
        match self.arguments.last().copied() {
            Some(id) if self.rng.chance(70) => plus(value_use(id), value),
            _ if self.rng.chance(10) => negate(value),
            _ => value,
        }
    }

    /// A constant that, used so many times, saves nothing, or few bytes or costs few.
    fn about_even(&mut self, uses: usize) -> Tree {
        // uses × size is size + 14 + 13 × uses; of the size 9 are not the literal.
        let even = (14 + 13 * uses) / (uses - 1) - 9;
        let literal = self.rng.range(even - 1, even + 1);
        self.constant(literal)
    }

    fn of_any_size(&mut self) -> Tree {
        let (low, high) = self.rng.weighted(&[
            ((1, 9), 25),
            ((10, 60), 35),
            ((100, 900), 30),
            ((1_000, 9_000), 10),
        ]);
        let literal = self.rng.range(low, high);
        self.constant(literal)
    }

    /// Mostly of a class that gets definitions, and one of few with that length.
    fn constant(&mut self, literal: usize) -> Tree {
        let literal = literal.min(self.left.max(1));
        self.left -= literal.min(self.left);
        let class = self.rng.weighted(&[(6, 95), (3, 5)]);
        constant(class, vec![self.rng.below(4) as u8; literal])
    }

    /// Takes the bytes of copies, if they are left.
    fn afford(&mut self, copies: usize, value: &Tree) -> bool {
        let bytes = copies * value.record.literal.len();
        let enough = bytes <= self.left;
        if enough {
            self.left -= bytes;
        }
        enough
    }
}
