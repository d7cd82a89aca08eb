//! Trees by hand, with the letters of document 01 ("Trees to compare").

use crate::forest::{Forest, Record, Tree};

pub fn node(shape: u8, opcode: u8, aux: u8, literal: &[u8], children: Vec<Tree>) -> Tree {
    Tree {
        record: Record {
            shape,
            opcode,
            aux,
            literal: literal.to_vec(),
        },
        children,
    }
}

pub fn z() -> Tree {
    node(2, 0xFE, 0, &[], vec![])
}

/// HEIGHT.
pub fn h() -> Tree {
    node(2, 0xA3, 0, &[], vec![])
}

/// A constant of class SInt.
pub fn k() -> Tree {
    node(0, 0x00, 3, &[4, 2], vec![])
}

/// A constant of another class.
pub fn x() -> Tree {
    node(0, 0x00, 6, &[7, 1], vec![])
}

/// A constant with a mark.
pub fn marked(mut constant: Tree, mark: u8) -> Tree {
    constant.record.set_mark(mark);
    constant
}

pub fn n(a: Tree) -> Tree {
    node(3, 0xF0, 0, &[], vec![a])
}

pub fn p(a: Tree, b: Tree) -> Tree {
    node(4, 0x9A, 0, &[], vec![a, b])
}

pub fn if_(c: Tree, t: Tree, e: Tree) -> Tree {
    node(5, 0x95, 0, &[], vec![c, t, e])
}

pub fn and(a: Tree, b: Tree) -> Tree {
    node(4, 0xED, 0, &[], vec![a, b])
}

pub fn tuple(items: Vec<Tree>) -> Tree {
    node(16, 0x86, 0, &[], items)
}

pub fn select(field: u8, input: Tree) -> Tree {
    node(17, 0x8C, 0, &[field], vec![input])
}

/// Field 1.
pub fn s1(input: Tree) -> Tree {
    select(1, input)
}

/// A use of an id.
pub fn val_use(id: u32) -> Tree {
    node(7, 0x72, 0, &id.to_le_bytes(), vec![])
}

/// A definition without type.
pub fn def(id: u32, value: Tree) -> Tree {
    node(10, 0xD6, 0, &untyped(&[id]), vec![value])
}

/// A block of definitions without types.
pub fn block(definitions: Vec<(u32, Tree)>, result: Tree) -> Tree {
    let mut children: Vec<Tree> = definitions.into_iter().map(|(i, v)| def(i, v)).collect();
    children.push(result);
    node(11, 0xD8, 0, &[], children)
}

/// A lambda whose arguments have no types.
pub fn lambda(ids: &[u32], body: Tree) -> Tree {
    node(12, 0xD9, ids.len() as u8, &untyped(ids), vec![body])
}

/// Ids, each followed by an opt that says "no type".
fn untyped(ids: &[u32]) -> Vec<u8> {
    ids.iter()
        .flat_map(|id| id.to_le_bytes().into_iter().chain([0]))
        .collect()
}

/// A forest of one tree.
pub fn alone(root: Tree) -> Forest {
    Forest { trees: vec![root] }
}
