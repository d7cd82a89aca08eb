//! The stack that the main call takes (docs/ARCHITECTURE.md, "The stack"), on the deepest building that is known.

use std::thread;

use cse_library::{call, Numbers, WORK_WORDS};

/// 244 lambdas are built inside one another here, which takes 0.5 MB. With a map of ids for each scope it took 1.0 MB.
const STACK: usize = 640 << 10;

/// As many lambdas inside one another as a definition's value has room for: depth 64, less block and definition.
const INSIDE: usize = 61;

/// A record whose aux is 0.
fn record(shape: u8, opcode: u8, children: u8, literal: &[u8]) -> Vec<u8> {
    [&[shape, opcode, children, 0, 0], literal].concat()
}

/// A value of lambdas without arguments around a leaf.
fn lambdas(leaf: Vec<u8>) -> Vec<Vec<u8>> {
    let mut records = vec![record(12, 0xD9, 1, &[]); INSIDE];
    records.push(leaf);
    records
}

fn value_use(id: u8) -> Vec<u8> {
    record(7, 0x72, 0, &[id, 0, 0, 0])
}

/// `{1 = lambdas around HEIGHT; 2 = lambdas around 1; ..; 4}`: each definition is used once, so the written tree has the
/// lambdas of all four inside one another.
fn chained() -> Vec<u8> {
    let mut records = vec![record(11, 0xD8, 5, &[])];
    let mut leaf = record(2, 0xA3, 0, &[]);
    for id in 1..=4 {
        records.push(record(10, 0xD6, 1, &[id, 0, 0, 0, 0]));
        records.extend(lambdas(leaf));
        leaf = value_use(id);
    }
    records.push(leaf);
    let count = records.len() as u16;
    let mut bytes = [1u16.to_le_bytes(), count.to_le_bytes()].concat();
    let mut place = 4 + 4 * count;
    for record in &records {
        bytes.extend(place.to_le_bytes());
        bytes.extend((record.len() as u16).to_le_bytes());
        place += record.len() as u16;
    }
    bytes.extend(records.concat());
    bytes
}

#[test]
fn lambdas_inside_one_another_are_planned_in_little_stack() {
    let builder = thread::Builder::new().stack_size(STACK);
    let planned =
        builder.spawn(|| call(&chained(), &mut vec![0; 65_535], &mut vec![0; WORK_WORDS]));
    // The written tree is deeper than 64, which is known once it is planned.
    let expected = Numbers {
        number: 14,
        ..Numbers::default()
    };
    assert_eq!(planned.unwrap().join().unwrap(), expected);
}
