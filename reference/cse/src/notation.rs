//! The short notation of document 01 ("Trees to compare"), to forests and back.
//!
//! `z`, `h`, `k`, `x`, `n(a)`, `p(a,b)`, `if(a,b,c)`, `and(a,b)`, `or(a,b)`, `s0(a)` to `s9(a)` and
//! `tuple(a,...)` are records with their operands; `{1=z; 2=n(1); p(1,2)}` is a block, `{z}` one with
//! a result only; `L7.a`, `L7,8.a` and `L.a` are lambdas; a bare number is a use. Environment trees
//! stand first, each followed by `|`. White space is free. No type can be written.
//!
//! Beyond document 01, a constant's mark stands after its word: `k:3`, `x:35`. `k:0` is `k`, which is how
//! it is printed.

mod printer;
mod reader;

use crate::forest::{Forest, Record, Tree, MARKS};
use printer::print_tree;
use reader::Reader;

/// A lambda's argument count has one byte.
const MAX_ARGUMENTS: usize = 255;

/// A word of the notation and the record that it stands for.
struct Word {
    name: &'static str,
    shape: u8,
    opcode: u8,
    aux: u8,
    literal: &'static [u8],
    /// How many operands it takes; `None` is any number.
    operands: Option<usize>,
}

const fn word(
    name: &'static str,
    shape: u8,
    opcode: u8,
    aux: u8,
    literal: &'static [u8],
    operands: Option<usize>,
) -> Word {
    Word {
        name,
        shape,
        opcode,
        aux,
        literal,
        operands,
    }
}

const WORDS: [Word; 20] = [
    word("z", 2, 0xFE, 0, &[], Some(0)),
    word("h", 2, 0xA3, 0, &[], Some(0)),
    word("k", 0, 0x00, 3, &[4, 2], Some(0)),
    word("x", 0, 0x00, 6, &[7, 1], Some(0)),
    word("n", 3, 0xF0, 0, &[], Some(1)),
    word("p", 4, 0x9A, 0, &[], Some(2)),
    word("and", 4, 0xED, 0, &[], Some(2)),
    word("or", 4, 0xEC, 0, &[], Some(2)),
    word("if", 5, 0x95, 0, &[], Some(3)),
    word("tuple", 16, 0x86, 0, &[], None),
    word("s0", 17, 0x8C, 0, &[0], Some(1)),
    word("s1", 17, 0x8C, 0, &[1], Some(1)),
    word("s2", 17, 0x8C, 0, &[2], Some(1)),
    word("s3", 17, 0x8C, 0, &[3], Some(1)),
    word("s4", 17, 0x8C, 0, &[4], Some(1)),
    word("s5", 17, 0x8C, 0, &[5], Some(1)),
    word("s6", 17, 0x8C, 0, &[6], Some(1)),
    word("s7", 17, 0x8C, 0, &[7], Some(1)),
    word("s8", 17, 0x8C, 0, &[8], Some(1)),
    word("s9", 17, 0x8C, 0, &[9], Some(1)),
];

impl Word {
    fn record(&self) -> Record {
        record(self.shape, self.opcode, self.aux, self.literal.to_vec())
    }

    fn is_constant(&self) -> bool {
        self.shape == 0
    }

    /// Whatever the mark of a constant.
    fn stands_for(&self, tree: &Tree) -> bool {
        let of = &tree.record;
        let same_aux = match self.is_constant() {
            true => of.class() == self.aux && of.mark() < MARKS,
            false => of.aux == self.aux,
        };
        (of.shape, of.opcode) == (self.shape, self.opcode)
            && same_aux
            && of.literal == self.literal
            && self.operands.is_none_or(|n| n == tree.children.len())
    }
}

fn record(shape: u8, opcode: u8, aux: u8, literal: Vec<u8>) -> Record {
    Record {
        shape,
        opcode,
        aux,
        literal,
    }
}

// The three records that hold ids.

fn value_use(id: u32) -> Record {
    record(7, 0x72, 0, id.to_le_bytes().to_vec())
}

fn definition(id: u32) -> Record {
    record(10, 0xD6, 0, untyped(&[id]))
}

fn lambda(arguments: &[u32]) -> Record {
    record(12, 0xD9, arguments.len() as u8, untyped(arguments))
}

/// Ids without types: each id, then 0 for the missing type.
fn untyped(ids: &[u32]) -> Vec<u8> {
    ids.iter()
        .flat_map(|id| id.to_le_bytes().into_iter().chain([0]))
        .collect()
}

fn block() -> Record {
    record(11, 0xD8, 0, Vec::new())
}

/// The forest that the text stands for, or what is wrong with the text and where.
pub fn parse(text: &str) -> Result<Forest, String> {
    let mut reader = Reader::new(text);
    let mut trees = vec![reader.tree()?];
    while reader.take('|') {
        trees.push(reader.tree()?);
    }
    match reader.peek() {
        None => Ok(Forest { trees }),
        Some(_) => Err(reader.error("trailing text")),
    }
}

/// The text of a forest, one way for each; `None` when a record is outside the notation.
pub fn print(forest: &Forest) -> Option<String> {
    if forest.trees.is_empty() {
        return None;
    }
    let mut out = String::new();
    for (i, tree) in forest.trees.iter().enumerate() {
        if i > 0 {
            out.push_str(" | ");
        }
        print_tree(tree, &mut out)?;
    }
    Some(out)
}
