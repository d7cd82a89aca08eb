//! Values, where operations may fail (request A.8): "Values are found eagerly: a definition before what follows it, all
//! operands first, save that IF takes one branch and ED, EC may skip the right." It takes nothing from the pass.

use crate::forest::{Forest, Record, Tree};

const VAL_USE: u8 = 7;
const VAL_DEF: u8 = 10;
const BLOCK_VALUE: u8 = 11;
const FUNC_VALUE: u8 = 12;
const SELECT_FIELD: u8 = 17;

const IF: u8 = 0x95;
const ED: u8 = 0xED;
const EC: u8 = 0xEC;

/// What operations and leaves mean.
pub trait Meaning {
    type Value: Clone;

    /// What an operation or a leaf gives, by its record and the values of the operands that were not skipped, in their
    /// order; none where it fails.
    fn apply(&self, record: &Record, operands: &[Self::Value]) -> Option<Self::Value>;

    /// Whether IF takes operand 1, and not operand 2, by the condition's value.
    fn takes_first(&self, condition: &Self::Value) -> bool;

    /// Whether ED or EC skips the right, by the value of the left.
    fn skips_right(&self, opcode: u8, left: &Self::Value) -> bool;
}

/// Whether the request speaks of a forest: "one tree with no lambda and no SelectField".
pub fn is_simple(forest: &Forest) -> bool {
    forest.trees.len() == 1 && !has(&forest.trees[0], &[FUNC_VALUE, SELECT_FIELD])
}

/// Whether a tree has a definition.
pub fn defines(tree: &Tree) -> bool {
    has(tree, &[VAL_DEF])
}

fn has(tree: &Tree, shapes: &[u8]) -> bool {
    let own = shapes.contains(&tree.record.shape);
    own || tree.children.iter().any(|child| has(child, shapes))
}

/// The value of an accepted tree; none where finding it fails. A lambda has none.
pub fn value<M: Meaning>(meaning: &M, tree: &Tree) -> Option<M::Value> {
    Evaluation::new(meaning, false).value(tree)
}

/// The same value, but none, too, where something that is skipped has none.
pub fn strict_value<M: Meaning>(meaning: &M, tree: &Tree) -> Option<M::Value> {
    Evaluation::new(meaning, true).value(tree)
}

/// A value being found. The first failure ends it.
struct Evaluation<'a, M: Meaning> {
    meaning: &'a M,
    /// Whether what is skipped has to have a value.
    strict: bool,
    /// The ids in force with their values, the newest last.
    in_force: Vec<(u32, M::Value)>,
}

impl<'a, M: Meaning> Evaluation<'a, M> {
    fn new(meaning: &'a M, strict: bool) -> Evaluation<'a, M> {
        Evaluation {
            meaning,
            strict,
            in_force: Vec::new(),
        }
    }

    fn value(&mut self, tree: &Tree) -> Option<M::Value> {
        match tree.record.shape {
            VAL_USE => Some(self.look_up(id(&tree.record))),
            BLOCK_VALUE => {
                let outside = self.in_force.len();
                let result = self.block(&tree.children);
                self.in_force.truncate(outside);
                result
            }
            FUNC_VALUE => None,
            _ => {
                let operands = self.operands(tree)?;
                self.meaning.apply(&tree.record, &operands)
            }
        }
    }

    fn look_up(&self, id: u32) -> M::Value {
        let bound = self.in_force.iter().rfind(|(bound, _)| *bound == id);
        bound.expect("check 10 has seen the id in force").1.clone()
    }

    /// The result, after each definition in turn, used or not.
    fn block(&mut self, children: &[Tree]) -> Option<M::Value> {
        let (result, definitions) = children.split_last().expect("check 4 has seen the result");
        for definition in definitions {
            let value = self.value(&definition.children[0])?;
            self.in_force.push((id(&definition.record), value));
        }
        self.value(result)
    }

    /// The values of the operands that are not skipped.
    fn operands(&mut self, tree: &Tree) -> Option<Vec<M::Value>> {
        match (tree.record.opcode, &tree.children[..]) {
            (IF, [condition, first, second]) => {
                let condition = self.value(condition)?;
                let (taken, other) = match self.meaning.takes_first(&condition) {
                    true => (first, second),
                    false => (second, first),
                };
                self.skip(other)?;
                Some(vec![condition, self.value(taken)?])
            }
            (opcode @ (ED | EC), [left, right]) => {
                let left = self.value(left)?;
                if self.meaning.skips_right(opcode, &left) {
                    self.skip(right)?;
                    return Some(vec![left]);
                }
                Some(vec![left, self.value(right)?])
            }
            (_, operands) => operands.iter().map(|operand| self.value(operand)).collect(),
        }
    }

    fn skip(&mut self, tree: &Tree) -> Option<()> {
        if self.strict {
            self.value(tree)?;
        }
        Some(())
    }
}

/// The id at the front of a use's or a definition's literal.
fn id(record: &Record) -> u32 {
    let l = &record.literal;
    u32::from_le_bytes([l[0], l[1], l[2], l[3]])
}

/// A family of meanings, by number, made to fail often: a fifth of the leaves does, and every third opcode divides by its
/// last operand. Values are 0 to 6. tools/check_definitions.py has the formulas a second time.
#[derive(Clone, Copy, PartialEq, Eq, Debug)]
pub struct Numbered(pub u64);

impl Numbered {
    /// How many of them comparisons use, from 0.
    pub const COUNT: u64 = 16;

    pub fn all() -> impl Iterator<Item = Numbered> {
        (0..Numbered::COUNT).map(Numbered)
    }

    fn weight(self, record: &Record) -> u64 {
        let literal = (1..).zip(&record.literal);
        let literal: u64 = literal.map(|(i, byte)| i * u64::from(*byte)).sum();
        let [shape, opcode, aux] = [record.shape, record.opcode, record.aux].map(u64::from);
        shape + 3 * opcode + 5 * aux + literal + self.0
    }
}

impl Meaning for Numbered {
    type Value = u64;

    fn apply(&self, record: &Record, operands: &[u64]) -> Option<u64> {
        let weight = self.weight(record);
        let Some(last) = operands.last() else {
            return match weight % 5 {
                0 => None,
                _ => Some(weight % 7),
            };
        };
        let terms = (2..).zip(operands).map(|(j, value)| j * value);
        let sum = weight + terms.sum::<u64>();
        match (u64::from(record.opcode) + self.0) % 3 {
            0 => Some(sum.checked_div(*last)? % 7),
            _ => Some(sum % 7),
        }
    }

    fn takes_first(&self, condition: &u64) -> bool {
        condition % 2 == 1
    }

    fn skips_right(&self, opcode: u8, left: &u64) -> bool {
        let odd = left % 2 == 1;
        odd == (opcode == EC)
    }
}
