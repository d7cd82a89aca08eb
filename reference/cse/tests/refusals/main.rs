//! Both sides of every refusal: here what the tests have in common.

mod directory;
mod one_shape;
mod records;
mod trees;

use cse_reference::check::{accept, Refusal};
use cse_reference::forest::{Forest, Tree};
use cse_reference::oracle::{answer, Answer};
use cse_reference::trees::*;

/// A forest's bytes from the fields of its records, whether they fit or not: shape, opcode, child
/// count, aux, literal.
fn raw(trees: u16, records: &[(u8, u8, u16, u8, &[u8])]) -> Vec<u8> {
    let mut directory = Vec::new();
    let mut body = Vec::new();
    for (shape, opcode, children, aux, literal) in records {
        let offset = 4 + 4 * records.len() + body.len();
        directory.extend((offset as u16).to_le_bytes());
        directory.extend((5 + literal.len() as u16).to_le_bytes());
        body.extend([*shape, *opcode]);
        body.extend(children.to_le_bytes());
        body.push(*aux);
        body.extend(*literal);
    }
    let counts = [trees, records.len() as u16].map(u16::to_le_bytes);
    [counts.concat(), directory, body].concat()
}

fn refuses(bytes: &[u8], number: u32, place: u32) {
    assert_eq!(accept(bytes), Err(Refusal { number, place }));
    let given = answer(bytes, 65_535, 16_384).unwrap();
    assert_eq!(given, refusal(number, place));
}

fn refusal(number: u32, place: u32) -> Answer {
    Answer {
        number,
        place,
        written_length: 0,
        symbols: 0,
        readings: 0,
        tree: vec![],
    }
}

fn accepts(bytes: &[u8]) {
    assert_eq!(
        accept(bytes).map(|forest| forest.to_bytes()).as_deref(),
        Ok(bytes)
    );
}

fn refuses_tree(tree: Tree, number: u32, place: u32) {
    refuses(&alone(tree).to_bytes(), number, place);
}

fn accepts_tree(tree: Tree) {
    accepts(&alone(tree).to_bytes());
}
