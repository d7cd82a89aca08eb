//! Records by shape: the opcodes that the generator uses, and trees made from them.

use super::Rng;
use crate::forest::{Record, Tree};

/// How many shapes there are.
pub const SHAPES: u8 = 27;

/// The opcodes used for each shape. No opcode but 00 stands in two rows, since check 16 lets each have one shape. They are few,
/// so that equal subtrees occur often.
const OPCODES: [&[u8]; SHAPES as usize] = [
    &[0x00],                                     // Const
    &[0x00],                                     // Unparsed
    &[0xFE, 0xA6, 0xA3, 0xA4, 0xA5, 0xA7, 0xDD], // Zero
    &[0xF0, 0xB1],                               // One
    &[0x9A, 0x91, 0xF4, 0xED, 0xEC],             // Two
    &[0x95, 0xB4],                               // Three
    &[0xCE],                                     // Four
    &[0x72],                                     // ValUse
    &[0x73],                                     // ConstPlaceholder
    &[0x71],                                     // TaggedVar
    &[0xD6],                                     // ValDef
    &[0xD8],                                     // BlockValue
    &[0xD9],                                     // FuncValue
    &[0xDC, 0xDB],                               // MethodCall
    &[0x83],                                     // ConcreteCollection
    &[0x85],                                     // BoolCollection
    &[0x86],                                     // Tuple
    &[0x8C],                                     // SelectField
    &[0xC6],                                     // ExtractRegisterAs
    &[0xE3],                                     // GetVar
    &[0xD4],                                     // DeserializeContext
    &[0xD5],                                     // DeserializeRegister
    &[0xEA, 0xEB],                               // SigmaCollection
    &[0xDF],                                     // NoneValue
    &[0xB2],                                     // ByIndex
    &[0x7D, 0x7E],                               // NumericCast
    &[0xDA],                                     // FuncApply
];

/// The opcodes that the generator uses for a shape.
pub fn opcodes(shape: u8) -> &'static [u8] {
    OPCODES[shape as usize]
}

pub(crate) const CONST: u8 = 0;
pub(crate) const UNPARSED: u8 = 1;
pub(crate) const ZERO: u8 = 2;
pub(crate) const ONE: u8 = 3;
pub(crate) const TWO: u8 = 4;
pub(crate) const THREE: u8 = 5;
pub(crate) const FOUR: u8 = 6;
pub(crate) const VAL_USE: u8 = 7;
pub(crate) const CONST_PLACEHOLDER: u8 = 8;
pub(crate) const TAGGED_VAR: u8 = 9;
pub(crate) const VAL_DEF: u8 = 10;
pub(crate) const BLOCK_VALUE: u8 = 11;
pub(crate) const FUNC_VALUE: u8 = 12;
pub(crate) const METHOD_CALL: u8 = 13;
pub(crate) const CONCRETE_COLLECTION: u8 = 14;
pub(crate) const BOOL_COLLECTION: u8 = 15;
pub(crate) const TUPLE: u8 = 16;
pub(crate) const SELECT_FIELD: u8 = 17;
pub(crate) const EXTRACT_REGISTER_AS: u8 = 18;
pub(crate) const GET_VAR: u8 = 19;
pub(crate) const DESERIALIZE_CONTEXT: u8 = 20;
pub(crate) const DESERIALIZE_REGISTER: u8 = 21;
pub(crate) const SIGMA_COLLECTION: u8 = 22;
pub(crate) const NONE_VALUE: u8 = 23;
pub(crate) const BY_INDEX: u8 = 24;
pub(crate) const NUMERIC_CAST: u8 = 25;
pub(crate) const FUNC_APPLY: u8 = 26;

pub(crate) const IF: u8 = 0x95;
pub(crate) const BIN_AND: u8 = 0xED;
pub(crate) const BIN_OR: u8 = 0xEC;
pub(crate) const HEIGHT: u8 = 0xA3;

/// The opcodes that check 5 binds to shapes.
const BOUND: [u8; 15] = [
    0x00, 0x72, 0x86, 0x8C, 0x95, 0xA3, 0xA4, 0xA5, 0xA7, 0xD6, 0xD8, 0xD9, 0xDD, 0xEC, 0xED,
];

/// Whether check 5 leaves the opcode to any shape without an opcode of its own.
pub fn is_free(opcode: u8) -> bool {
    !BOUND.contains(&opcode)
}

/// Whether check 5 leaves the shape any opcode that is free.
pub fn takes_free(shape: u8) -> bool {
    let own = [
        CONST,
        UNPARSED,
        VAL_USE,
        VAL_DEF,
        BLOCK_VALUE,
        FUNC_VALUE,
        TUPLE,
        SELECT_FIELD,
    ];
    shape < SHAPES && !own.contains(&shape)
}

/// For each opcode another, the bound ones for themselves: records that get them have one shape each as before, and keep all that
/// the checks look at.
pub(crate) fn shuffled_opcodes(rng: &mut Rng) -> Vec<u8> {
    let free: Vec<u8> = (0..=255).filter(|&opcode| is_free(opcode)).collect();
    let mut shuffled = free.clone();
    rng.shuffle(&mut shuffled);
    let mut all: Vec<u8> = (0..=255).collect();
    for (opcode, other) in free.into_iter().zip(shuffled) {
        all[usize::from(opcode)] = other;
    }
    all
}

/// A type in a literal: its length, then its bytes. `None` is a missing type.
pub(crate) type Opt = Option<Vec<u8>>;

pub(crate) fn tree(shape: u8, opcode: u8, literal: Vec<u8>, children: Vec<Tree>) -> Tree {
    let record = Record {
        shape,
        opcode,
        aux: 0,
        literal,
    };
    Tree { record, children }
}

/// A record without literal, under the shape's first opcode.
pub(crate) fn plain(shape: u8, children: Vec<Tree>) -> Tree {
    tree(shape, opcodes(shape)[0], Vec::new(), children)
}

pub(crate) fn constant(class: u8, literal: Vec<u8>) -> Tree {
    let mut tree = tree(CONST, 0x00, literal, Vec::new());
    tree.record.aux = class;
    tree
}

pub(crate) fn unparsed(literal: Vec<u8>) -> Tree {
    tree(UNPARSED, 0x00, literal, Vec::new())
}

pub(crate) fn value_use(id: u32) -> Tree {
    tree(VAL_USE, 0x72, id.to_le_bytes().to_vec(), Vec::new())
}

pub(crate) fn definition(id: u32, opt: &Opt, value: Tree) -> Tree {
    let mut literal = Vec::new();
    put_id_opt(&mut literal, id, opt);
    tree(VAL_DEF, 0xD6, literal, vec![value])
}

pub(crate) fn block(definitions: Vec<Tree>, result: Tree) -> Tree {
    let mut children = definitions;
    children.push(result);
    plain(BLOCK_VALUE, children)
}

pub(crate) fn lambda(arguments: &[(u32, Opt)], body: Tree) -> Tree {
    let mut literal = Vec::new();
    for (id, opt) in arguments {
        put_id_opt(&mut literal, *id, opt);
    }
    let mut tree = tree(FUNC_VALUE, 0xD9, literal, vec![body]);
    tree.record.aux = arguments.len() as u8;
    tree
}

/// A lambda whose arguments have no types.
pub(crate) fn untyped_lambda(ids: &[u32], body: Tree) -> Tree {
    let arguments: Vec<(u32, Opt)> = ids.iter().map(|id| (*id, None)).collect();
    lambda(&arguments, body)
}

pub(crate) fn select(field: u8, input: Tree) -> Tree {
    tree(SELECT_FIELD, 0x8C, vec![field], vec![input])
}

pub(crate) fn put_id_opt(literal: &mut Vec<u8>, id: u32, opt: &Opt) {
    literal.extend(id.to_le_bytes());
    put_opt(literal, opt);
}

pub(crate) fn put_opt(literal: &mut Vec<u8>, opt: &Opt) {
    match opt {
        None => literal.push(0),
        Some(of) => {
            literal.push(1);
            literal.extend(of);
        }
    }
}

/// The id at the front of a use's or a definition's literal.
pub(crate) fn first_id(record: &Record) -> u32 {
    let l = &record.literal;
    u32::from_le_bytes([l[0], l[1], l[2], l[3]])
}

/// The ids that a well-formed lambda binds.
pub(crate) fn argument_ids(record: &Record) -> Vec<u32> {
    let mut rest = &record.literal[..];
    let mut ids = Vec::new();
    for _ in 0..record.aux {
        ids.push(u32::from_le_bytes([rest[0], rest[1], rest[2], rest[3]]));
        let opt = match rest[4] {
            0 => 1,
            _ => 2 + rest[5] as usize,
        };
        rest = &rest[4 + opt..];
    }
    ids
}

/// Whether a record's operand is a scope of its own: a thunk or a lambda's body.
pub(crate) fn opens_scope(record: &Record, operand: usize) -> bool {
    match (record.shape, record.opcode) {
        (FUNC_VALUE, _) => true,
        (THREE, IF) => operand > 0,
        (TWO, BIN_AND | BIN_OR) => operand == 1,
        _ => false,
    }
}

/// How many scopes stand one inside the other in a tree.
pub fn nested_scopes(tree: &Tree) -> usize {
    let inner = tree
        .children
        .iter()
        .enumerate()
        .map(|(i, child)| usize::from(opens_scope(&tree.record, i)) + nested_scopes(child));
    inner.max().unwrap_or(0)
}
