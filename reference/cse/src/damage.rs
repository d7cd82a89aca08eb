//! Forests with a known fault, for each of refusals 2 to 10 of document 01 and 16 of request A.9. The number and the place
//! follow from how the fault is made, not from looking for it, so they can be set beside a check.
//!
//! Checks go over the whole forest one after the other. So a fault that a later check would find may
//! stand anywhere, and at times one is put in to see that the earlier check speaks first.

mod binding;
mod framing;
mod literal;
mod mixed;
mod nodes;
mod record;
mod structure;

use crate::forest::{Forest, Tree};
use crate::generate::{at_times_marked, Kind, Rng};

const MAX_BYTES: usize = 65_535;
const MAX_RECORDS: usize = 256;
const MAX_DEPTH: usize = 64;

/// The bytes of a forest and how they are refused.
#[derive(Clone, PartialEq, Eq, Debug)]
pub struct Damaged {
    pub bytes: Vec<u8>,
    pub number: u32,
    pub place: u32,
}

/// The refusals of the checks, in their order.
pub const NUMBERS: [u32; 10] = [2, 3, 4, 5, 6, 7, 16, 8, 9, 10];

/// A fault of some number.
pub fn damaged(seed: u64) -> Damaged {
    let number = Rng::new(seed).pick(&NUMBERS);
    each(number, seed)
}

/// A fault of the given number, one of [`NUMBERS`].
pub fn each(number: u32, seed: u64) -> Damaged {
    described(number, seed).0
}

/// A fault of the given number, and what was done.
pub fn described(number: u32, seed: u64) -> (Damaged, &'static str) {
    // Numbers with the same seed draw from different streams, and none from a generator's.
    let mut rng = Rng::new(seed ^ (u64::from(number) << 48) ^ 0xDA3A_6ED0);
    let make = match number {
        2 => framing::header,
        3 => framing::directory,
        4 => record::shape,
        5 => record::opcode,
        6 => structure::closing,
        7 => structure::depth,
        8 => structure::misplaced_definition,
        9 => binding::bound_again,
        10 => binding::not_in_force,
        16 => mixed::refused,
        _ => panic!("no damage for refusal {number}"),
    };
    // A way may not suit the forest that was drawn; then both are drawn again.
    let fault = loop {
        match make(&mut rng) {
            Some(fault) if number == 2 || fault.bytes.len() <= MAX_BYTES => break fault,
            _ => {}
        }
    };
    let damaged = Damaged {
        bytes: fault.bytes,
        number,
        place: fault.place as u32,
    };
    (damaged, fault.way)
}

/// A forest where an opcode has two shapes, and how: it is refused with 16, or with a number that is checked before.
pub fn two_shapes(seed: u64) -> (Damaged, &'static str) {
    let mut rng = Rng::new(seed ^ 0x2500_9A9A);
    let (number, fault) = mixed::any(&mut rng);
    let damaged = Damaged {
        bytes: fault.bytes,
        number,
        place: fault.place as u32,
    };
    (damaged, fault.way)
}

/// The ways of [`two_shapes`].
pub fn ways_of_two_shapes() -> Vec<&'static str> {
    mixed::WAYS.iter().map(|way| way.name).collect()
}

/// What a way of damaging gives.
struct Fault {
    bytes: Vec<u8>,
    place: usize,
    way: &'static str,
}

/// An accepted forest to start from, a third of them with marks.
fn base(rng: &mut Rng) -> Forest {
    let kind = rng.weighted(&[
        (Kind::Small, 40),
        (Kind::Medium, 10),
        (Kind::Blocks, 15),
        (Kind::Lambdas, 10),
        (Kind::Thunks, 5),
        (Kind::Projections, 5),
        (Kind::Wide, 5),
        (Kind::Large, 5),
        (Kind::Deep, 5),
    ]);
    at_times_marked(rng.bits(), kind)
}

/// A forest as the file holds it, where counts need not fit what follows.
struct File {
    trees: usize,
    records: Vec<Raw>,
}

/// A record with its child count.
#[derive(Clone)]
struct Raw {
    shape: u8,
    opcode: u8,
    count: usize,
    aux: u8,
    literal: Vec<u8>,
}

impl File {
    fn of(forest: &Forest) -> File {
        fn flatten(tree: &Tree, records: &mut Vec<Raw>) {
            records.push(Raw {
                shape: tree.record.shape,
                opcode: tree.record.opcode,
                count: tree.children.len(),
                aux: tree.record.aux,
                literal: tree.record.literal.clone(),
            });
            for child in &tree.children {
                flatten(child, records);
            }
        }
        let mut records = Vec::new();
        for tree in &forest.trees {
            flatten(tree, &mut records);
        }
        File {
            trees: forest.trees.len(),
            records,
        }
    }

    /// The records of bytes with a right directory.
    fn read(bytes: &[u8]) -> File {
        let at = |place| usize::from(u16::from_le_bytes([bytes[place], bytes[place + 1]]));
        let raw = |index| {
            let (start, length) = (at(4 + 4 * index), at(6 + 4 * index));
            Raw {
                shape: bytes[start],
                opcode: bytes[start + 1],
                count: at(start + 2),
                aux: bytes[start + 4],
                literal: bytes[start + 5..start + length].to_vec(),
            }
        };
        File {
            trees: at(0),
            records: (0..at(2)).map(raw).collect(),
        }
    }

    /// The bytes, with a right directory.
    fn bytes(&self) -> Vec<u8> {
        let mut bytes = Vec::new();
        put16(&mut bytes, self.trees);
        put16(&mut bytes, self.records.len());
        let mut offset = 4 + 4 * self.records.len();
        for record in &self.records {
            let length = 5 + record.literal.len();
            put16(&mut bytes, offset);
            put16(&mut bytes, length);
            offset += length;
        }
        for record in &self.records {
            bytes.extend([record.shape, record.opcode]);
            put16(&mut bytes, record.count);
            bytes.push(record.aux);
            bytes.extend(&record.literal);
        }
        bytes
    }
}

/// Two bytes, little-endian; what is over 65,535 wraps.
fn put16(bytes: &mut Vec<u8>, number: usize) {
    bytes.extend((number as u16).to_le_bytes());
}
