//! Forests: records, trees, and their bytes.

pub use ergo_ser::sigma_value::{constant_aux, CLASSES, MARKS};

/// The shape of constants, the only one with a class and a mark.
const CONST: u8 = 0;

/// What a record says of itself.
#[derive(Clone, PartialEq, Eq, Debug)]
pub struct Record {
    pub shape: u8,
    pub opcode: u8,
    pub aux: u8,
    pub literal: Vec<u8>,
}

/// A record with its children's subtrees.
#[derive(Clone, PartialEq, Eq, Debug)]
pub struct Tree {
    pub record: Record,
    pub children: Vec<Tree>,
}

/// The environment trees and, last, the root.
#[derive(Clone, PartialEq, Eq, Debug)]
pub struct Forest {
    pub trees: Vec<Tree>,
}

impl Record {
    /// A constant's class, which stands for its type.
    pub fn class(&self) -> u8 {
        self.aux % CLASSES
    }

    /// A constant's mark.
    pub fn mark(&self) -> u8 {
        self.aux / CLASSES
    }

    /// Gives a constant another mark.
    pub fn set_mark(&mut self, mark: u8) {
        self.aux = constant_aux(self.class(), mark);
    }
}

impl Tree {
    /// The number of records in the tree.
    pub fn size(&self) -> usize {
        1 + self.children.iter().map(Tree::size).sum::<usize>()
    }

    /// The number of records on the longest way from the root; a root alone has depth 1.
    pub fn depth(&self) -> usize {
        1 + self.children.iter().map(Tree::depth).max().unwrap_or(0)
    }

    /// Adds the tree's records in file order: a record, then its children's subtrees.
    fn push_records(&self, out: &mut Vec<Vec<u8>>) {
        let mut bytes = vec![self.record.shape, self.record.opcode];
        bytes.extend((self.children.len() as u16).to_le_bytes());
        bytes.push(self.record.aux);
        bytes.extend(&self.record.literal);
        out.push(bytes);
        for child in &self.children {
            child.push_records(out);
        }
    }

    fn push_records_mut<'a>(&'a mut self, out: &mut Vec<&'a mut Record>) {
        out.push(&mut self.record);
        for child in &mut self.children {
            child.push_records_mut(out);
        }
    }
}

impl Forest {
    /// The bytes of a forest (document 01, "The forest"). Counts, offsets and lengths are cut to 16
    /// bits, so a forest over the limits gives bytes that do not read back.
    pub fn to_bytes(&self) -> Vec<u8> {
        let mut records = Vec::new();
        for tree in &self.trees {
            tree.push_records(&mut records);
        }
        let mut out = Vec::new();
        out.extend((self.trees.len() as u16).to_le_bytes());
        out.extend((records.len() as u16).to_le_bytes());
        let mut offset = 4 + 4 * records.len();
        for record in &records {
            out.extend((offset as u16).to_le_bytes());
            out.extend((record.len() as u16).to_le_bytes());
            offset += record.len();
        }
        for record in &records {
            out.extend(record);
        }
        out
    }

    /// The number of records in all trees.
    pub fn size(&self) -> usize {
        self.trees.iter().map(Tree::size).sum()
    }

    /// The records of all trees, in file order.
    pub fn records_mut(&mut self) -> Vec<&mut Record> {
        let mut records = Vec::new();
        for tree in &mut self.trees {
            tree.push_records_mut(&mut records);
        }
        records
    }

    /// The constants, in file order.
    pub fn constants(&self) -> Vec<Record> {
        let mut forest = self.clone();
        let constants = forest.constants_mut();
        constants.into_iter().map(|record| record.clone()).collect()
    }

    /// The records that are constants.
    pub fn constants_mut(&mut self) -> Vec<&mut Record> {
        let mut records = self.records_mut();
        records.retain(|record| record.shape == CONST);
        records
    }

    /// The forest with mark 0 on every constant.
    pub fn without_marks(&self) -> Forest {
        let mut forest = self.clone();
        for constant in forest.constants_mut() {
            constant.set_mark(0);
        }
        forest
    }
}
