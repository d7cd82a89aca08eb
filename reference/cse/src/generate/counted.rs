//! Forests made by counting readings or symbols, so that they come out near the limit.

use super::limits::*;
use super::records::*;
use super::Rng;
use crate::forest::{Forest, Tree};

// Readings.

/// A root that is read near 2,048 times in all, by fields of tuples of fields of tuples.
pub(super) fn near_readings(rng: &mut Rng) -> Forest {
    let environment = rng.chance(20);
    let readings = match rng.chance(80) {
        true => near(rng, 2_048, 8),
        false => rng.range(100, 6_000),
    };
    let scopes = match rng.chance(30) {
        true => 6,
        false => 0,
    };
    let mut exact = Exact {
        rng,
        splits: 2,
        scopes,
        next_id: 1,
    };
    let root = exact.tree(readings - usize::from(environment));
    let trees = match environment {
        true => vec![height(), root],
        false => vec![root],
    };
    Forest { trees }
}

/// Makes trees with an exact number of readings. A halving takes at most 5 records and 4 levels, and
/// there are 12 at most, so that 2 splits and 6 scopes leave a tree under 256 records and 64 deep.
struct Exact<'a> {
    rng: &'a mut Rng,
    /// How many more times two trees may share the readings.
    splits: usize,
    /// How many more thunks and lambdas there may be. What they hold is made anew when it is read
    /// again, so trees with some may pass 512 symbols first.
    scopes: usize,
    next_id: u32,
}

impl Exact<'_> {
    fn tree(&mut self, readings: usize) -> Tree {
        match readings {
            1 => self.rng.pick(&[zero(), height(), numbered(1), numbered(2)]),
            2 => negate(self.tree(1)),
            3 => plus(self.tree(1), self.tree(1)),
            _ if readings % 2 == 1 => self.twice(readings),
            _ if self.splits > 0 && self.rng.chance(25) => {
                self.splits -= 1;
                let left = self.rng.range(1, readings - 2);
                plus(self.tree(left), self.tree(readings - 1 - left))
            }
            _ if self.scopes > 0 && self.rng.chance(30) => self.scope(readings),
            _ => negate(self.tree(readings - 1)),
        }
    }

    /// A field of a tuple: the tuple is read twice, so the number is odd and at least 5.
    fn twice(&mut self, readings: usize) -> Tree {
        let input = (readings - 1) / 2;
        let field = self.rng.pick(&[1, 2]);
        let input = match self.rng.below(5) {
            0 if input > 2 => {
                let children = vec![self.tree(input - 2), self.tree(1)];
                tuple(children)
            }
            1 if input > 4 => {
                let id = self.id();
                let value = self.tree(input - 4);
                block(
                    vec![definition(id, &None, value)],
                    tuple(vec![value_use(id)]),
                )
            }
            _ => tuple(vec![self.tree(input - 1)]),
        };
        select(field, input)
    }

    /// A thunk or a lambda; an even number, at least 4.
    fn scope(&mut self, readings: usize) -> Tree {
        self.scopes -= 1;
        match self.rng.below(3) {
            0 => {
                let inner = self.tree(readings - 2);
                tree(TWO, BIN_AND, Vec::new(), vec![height(), inner])
            }
            1 => {
                let inner = self.tree(readings - 3);
                tree(THREE, IF, Vec::new(), vec![height(), zero(), inner])
            }
            _ => {
                let id = self.id();
                untyped_lambda(&[id], self.tree(readings - 1))
            }
        }
    }

    fn id(&mut self) -> u32 {
        self.next_id += 1;
        self.next_id
    }
}

// Symbols.

/// A tuple of parts that make near 512 symbols in all.
pub(super) fn near_symbols(rng: &mut Rng) -> Forest {
    let symbols = match rng.chance(85) {
        true => near(rng, 512, 6),
        false => rng.range(300, 900),
    };
    let (mut left, mut records) = (symbols - 1, 255);
    let mut parts = Vec::new();
    while left > 0 && records > 3 {
        // Large parts while few records are left for many symbols.
        let large = left > 2 * records;
        let part = part(rng, parts.len(), left, large);
        left -= part.symbols;
        records -= part.tree.size();
        parts.push(part.tree);
    }
    rng.shuffle(&mut parts);
    with_environment(rng, tuple(parts))
}

struct Part {
    tree: Tree,
    symbols: usize,
}

/// A part that makes at most `most` symbols and shares none with a part of another number.
fn part(rng: &mut Rng, number: usize, most: usize, large: bool) -> Part {
    let choice = match large {
        true => rng.below(4),
        false => rng.below(9),
    };
    let arguments = match rng.chance(70) {
        true => 15,
        false => rng.range(0, 15),
    };
    let first = 1 + number as u32 % 3;
    let ids: Vec<u32> = (first..first + arguments as u32).collect();
    let constant = numbered(number);
    let (tree, symbols) = match choice {
        // The arguments, the constant and the lambda.
        0 => (untyped_lambda(&ids, constant), arguments + 2),
        // The arguments and the lambda.
        1 if arguments > 0 => {
            let body = value_use(rng.pick(&ids));
            (untyped_lambda(&ids, body), arguments + 1)
        }
        // Read twice: the arguments are new each time, and nothing else is.
        2 => {
            let input = tuple(vec![untyped_lambda(&ids, constant)]);
            (select(1, input), 2 * arguments + 4)
        }
        // Read twice: as the body is an argument, lambda and tuple are new too.
        3 if arguments > 0 => {
            let input = tuple(vec![untyped_lambda(&ids, value_use(first))]);
            (select(2, input), 2 * arguments + 5)
        }
        // Both projections, though one is asked for.
        4 | 5 => (select(rng.pick(&[1, 2]), constant), 3),
        6 => (select(3, constant), 2),
        // The thunk's table is dropped, so the constant is made twice.
        7 => {
            let branches = vec![condition(number), constant.clone(), constant];
            (tree(THREE, IF, Vec::new(), branches), 4)
        }
        _ => (constant, 1),
    };
    match symbols <= most {
        true => Part { tree, symbols },
        false => Part {
            tree: numbered(number),
            symbols: 1,
        },
    }
}

/// A condition that no other part has.
fn condition(number: usize) -> Tree {
    constant(3, vec![5, number as u8, (number >> 8) as u8])
}
