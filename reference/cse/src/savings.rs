//! Bytes saved by each definition of a written tree (request A.1), from the request's words. One walk from front to back keeps
//! what is in force, charges each use to the definition that it finds there, and adds the count over records up beside it.
//! Sizes, the walk, what it found.

use std::collections::BTreeMap;

use crate::forest::Tree;
use crate::generate::records::{argument_ids, first_id, FUNC_VALUE, VAL_DEF, VAL_USE};

/// "less 14 for the definition": its record, which has no type, and its pair.
const A_DEFINITION: i64 = 14;

/// "less 13 a use".
const A_USE: i64 = 13;

/// A subtree's size: "its records' bytes plus 4 for each pair". A record has five bytes before its literal.
pub fn size(tree: &Tree) -> i64 {
    let children: i64 = tree.children.iter().map(size).sum();
    5 + tree.record.literal.len() as i64 + 4 + children
}

/// A definition of the tree.
#[derive(Clone, Copy, PartialEq, Eq, Debug)]
pub struct Definition {
    pub id: u32,
    /// Those that mean this one, also where its id is bound elsewhere.
    pub uses: i64,
    /// That of its value, as it is written.
    pub size: i64,
}

impl Definition {
    pub fn saving(self) -> i64 {
        self.uses * self.size - self.size - A_DEFINITION - A_USE * self.uses
    }

    /// "id and saving".
    pub fn line(self) -> String {
        format!("{} {}\n", self.id, self.saving())
    }
}

/// What was found in a tree.
#[derive(Clone, PartialEq, Eq, Debug, Default)]
pub struct Savings {
    /// In record order.
    pub definitions: Vec<Definition>,
    /// "for each use of a definition its value's size less 13, and for each definition minus that size and 14".
    pub counted: i64,
    /// How often each id is used, whatever it means.
    by_id: BTreeMap<u32, i64>,
}

/// The definitions of a tree in which every use is of an id that is in force.
pub fn savings(tree: &Tree) -> Savings {
    let mut walk = Walk::default();
    walk.enter(tree);
    let savings = walk.savings;
    assert_eq!(savings.total(), savings.counted, "the sum is the count");
    savings
}

impl Savings {
    /// The sum of the lines.
    pub fn total(&self) -> i64 {
        self.each().sum()
    }

    pub fn each(&self) -> impl Iterator<Item = i64> + '_ {
        self.definitions.iter().map(|found| found.saving())
    }

    pub fn lines(&self) -> String {
        self.definitions.iter().map(|found| found.line()).collect()
    }

    /// The lines if each use of an id, an argument's too, counted for all definitions of that id.
    pub fn lines_by_id(&self) -> String {
        let each = self.definitions.iter().map(|found| Definition {
            uses: self.by_id.get(&found.id).copied().unwrap_or(0),
            ..*found
        });
        each.map(Definition::line).collect()
    }
}

/// What an id means.
#[derive(Clone, Copy)]
enum Bound {
    Argument,
    /// The number of a definition, and its value's size.
    Value(usize, i64),
}

#[derive(Default)]
struct Walk {
    savings: Savings,
    /// What is in force, the innermost last.
    in_force: Vec<(u32, Bound)>,
}

impl Walk {
    fn enter(&mut self, tree: &Tree) {
        let outside = self.in_force.len();
        match tree.record.shape {
            VAL_USE => self.charge(first_id(&tree.record)),
            FUNC_VALUE => {
                let ids = argument_ids(&tree.record).into_iter();
                self.in_force.extend(ids.map(|id| (id, Bound::Argument)));
            }
            _ => {}
        }
        for child in &tree.children {
            match child.record.shape {
                VAL_DEF => self.define(child),
                _ => self.enter(child),
            }
        }
        self.in_force.truncate(outside);
    }

    /// A definition is in force behind its own value.
    fn define(&mut self, definition: &Tree) {
        let id = first_id(&definition.record);
        let size = size(&definition.children[0]);
        let number = self.savings.definitions.len();
        let found = Definition { id, uses: 0, size };
        self.savings.definitions.push(found);
        self.savings.counted -= size + A_DEFINITION;
        self.enter(definition);
        self.in_force.push((id, Bound::Value(number, size)));
    }

    fn charge(&mut self, id: u32) {
        *self.savings.by_id.entry(id).or_default() += 1;
        let bound = self.in_force.iter().rev().find(|(other, _)| *other == id);
        let (_, bound) = bound.expect("a use is of an id in force");
        if let Bound::Value(number, size) = *bound {
            self.savings.definitions[number].uses += 1;
            self.savings.counted += size - A_USE;
        }
    }
}
