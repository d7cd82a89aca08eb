//! Readings and symbols, counted as document 01 says ("From forest to symbols"), with refusals 11
//! and 12. The original has no limits and counts nothing, so this comes from the paper; where the
//! original runs, its symbols are as many.

use std::collections::HashMap;

use crate::check::Refusal;
use crate::forest::{Forest, Tree};

pub const MAX_READINGS: u32 = 2_048;
pub const MAX_SYMBOLS: u32 = 512;

const IF: u8 = 0x95;
const BIN_AND: u8 = 0xED;
const BIN_OR: u8 = 0xEC;

const VAL_USE: u8 = 7;
const VAL_DEF: u8 = 10;
const BLOCK_VALUE: u8 = 11;
const FUNC_VALUE: u8 = 12;
const TUPLE: u8 = 16;
const SELECT_FIELD: u8 = 17;

/// What interning an accepted forest takes.
#[derive(Clone, Copy, PartialEq, Eq, Debug)]
pub struct Counts {
    pub symbols: u32,
    pub readings: u32,
}

/// Interns all trees of an accepted forest: the counts, or refusal 11 or 12.
pub fn count(forest: &Forest) -> Result<Counts, Refusal> {
    let mut interning = Interning::new();
    let mut place = 0;
    for tree in &forest.trees {
        interning.read(tree, place)?;
        place += tree.size();
    }
    Ok(Counts {
        symbols: interning.is_tuple.len() as u32,
        readings: interning.readings,
    })
}

type Symbol = usize;

/// Equal means the same shape, opcode, aux, literal and child symbols.
#[derive(Clone, PartialEq, Eq, Hash)]
struct Key {
    shape: u8,
    opcode: u8,
    aux: u8,
    literal: Vec<u8>,
    children: Vec<Symbol>,
}

struct Interning {
    readings: u32,
    /// One entry a symbol: a field of a Tuple is not remembered as a projection.
    is_tuple: Vec<bool>,
    /// The open tables, the outermost first; only a thunk opens one.
    tables: Vec<HashMap<Key, Symbol>>,
    /// The ids in force and what they are bound to.
    bound: Vec<(u32, Symbol)>,
    /// Both projections of a symbol, remembered across thunks.
    projections: HashMap<Symbol, [Symbol; 2]>,
}

impl Interning {
    fn new() -> Self {
        Interning {
            readings: 0,
            is_tuple: Vec::new(),
            tables: vec![HashMap::new()],
            bound: Vec::new(),
            projections: HashMap::new(),
        }
    }

    /// Reads the record at `place` with its subtree and gives its symbol.
    fn read(&mut self, tree: &Tree, place: usize) -> Result<Symbol, Refusal> {
        if self.readings == MAX_READINGS {
            return Err(refuse(11, place));
        }
        self.readings += 1;
        let record = &tree.record;
        match record.shape {
            VAL_USE => Ok(self.look_up(id(&record.literal))),
            VAL_DEF => {
                let value = self.read(&tree.children[0], place + 1)?;
                self.bound.push((id(&record.literal), value));
                Ok(value)
            }
            BLOCK_VALUE => {
                let outside = self.bound.len();
                let symbols = self.read_children(tree, place)?;
                self.bound.truncate(outside);
                Ok(*symbols.last().expect("a block has a result"))
            }
            FUNC_VALUE => {
                let outside = self.bound.len();
                for id in argument_ids(&record.literal) {
                    let argument = self.fresh(false, place)?;
                    self.bound.push((id, argument));
                }
                let body = self.read(&tree.children[0], place + 1)?;
                self.bound.truncate(outside);
                self.find_or_make(key(tree, vec![body]), place)
            }
            SELECT_FIELD if matches!(record.literal[0], 1 | 2) => {
                let input = self.read(&tree.children[0], place + 1)?;
                if self.is_tuple[input] {
                    let again = self.read(&tree.children[0], place + 1)?;
                    self.find_or_make(key(tree, vec![again]), place)
                } else {
                    let both = self.both_projections(tree, input, place)?;
                    Ok(both[usize::from(record.literal[0]) - 1])
                }
            }
            _ => {
                let symbols = self.read_children(tree, place)?;
                self.find_or_make(key(tree, symbols), place)
            }
        }
    }

    /// Reads the children in order, each thunk with a table of its own.
    fn read_children(&mut self, tree: &Tree, place: usize) -> Result<Vec<Symbol>, Refusal> {
        let mut at = place + 1;
        let mut symbols = Vec::with_capacity(tree.children.len());
        for (position, child) in tree.children.iter().enumerate() {
            let thunk = opens_thunk(tree.record.opcode, position);
            if thunk {
                self.tables.push(HashMap::new());
            }
            symbols.push(self.read(child, at)?);
            if thunk {
                self.tables.pop();
            }
            at += child.size();
        }
        Ok(symbols)
    }

    fn both_projections(
        &mut self,
        select: &Tree,
        input: Symbol,
        place: usize,
    ) -> Result<[Symbol; 2], Refusal> {
        if let Some(&both) = self.projections.get(&input) {
            return Ok(both);
        }
        let mut both = [0; 2];
        for (symbol, field) in both.iter_mut().zip([1, 2]) {
            let mut projection = key(select, vec![input]);
            projection.literal = vec![field];
            *symbol = self.find_or_make(projection, place)?;
        }
        self.projections.insert(input, both);
        Ok(both)
    }

    /// Seeks the key in the newest open table first; a new symbol goes into the newest.
    fn find_or_make(&mut self, key: Key, place: usize) -> Result<Symbol, Refusal> {
        if let Some(&symbol) = self.tables.iter().rev().find_map(|table| table.get(&key)) {
            return Ok(symbol);
        }
        let symbol = self.fresh(key.shape == TUPLE, place)?;
        let newest = self.tables.last_mut().expect("one table is always open");
        newest.insert(key, symbol);
        Ok(symbol)
    }

    fn fresh(&mut self, is_tuple: bool, place: usize) -> Result<Symbol, Refusal> {
        if self.is_tuple.len() as u32 == MAX_SYMBOLS {
            return Err(refuse(12, place));
        }
        self.is_tuple.push(is_tuple);
        Ok(self.is_tuple.len() - 1)
    }

    fn look_up(&self, id: u32) -> Symbol {
        let found = self.bound.iter().rev().find(|(bound, _)| *bound == id);
        found.expect("check 10 has seen the id in force").1
    }
}

fn refuse(number: u32, place: usize) -> Refusal {
    Refusal {
        number,
        place: place as u32,
    }
}

/// Operands 1 and 2 of IF and operand 1 of ED and EC; check 5 has seen their shapes.
fn opens_thunk(opcode: u8, operand: usize) -> bool {
    match opcode {
        IF => operand == 1 || operand == 2,
        BIN_AND | BIN_OR => operand == 1,
        _ => false,
    }
}

fn key(tree: &Tree, children: Vec<Symbol>) -> Key {
    Key {
        shape: tree.record.shape,
        opcode: tree.record.opcode,
        aux: tree.record.aux,
        literal: tree.record.literal.clone(),
        children,
    }
}

fn id(literal: &[u8]) -> u32 {
    u32::from_le_bytes([literal[0], literal[1], literal[2], literal[3]])
}

/// The ids in a lambda's literal: each is followed by 0, or by 1 and a type.
fn argument_ids(literal: &[u8]) -> Vec<u32> {
    let mut ids = Vec::new();
    let mut rest = literal;
    while !rest.is_empty() {
        ids.push(id(rest));
        rest = match rest[4] {
            0 => &rest[5..],
            _ => &rest[6 + usize::from(rest[5])..],
        };
    }
    ids
}
