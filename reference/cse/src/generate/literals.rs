//! Literals and records without children, from small stocks so that equal ones are common.

use super::records::*;
use super::Rng;
use crate::forest::Tree;

/// A literal of at most this many bytes is not rationed.
const SHORT: usize = 200;

/// The bytes of all long literals in one forest. 256 records take at most 4 + 256 × 9 bytes without
/// their literals and 256 × 200 in short ones; with these that is still under 65,535.
const LONG: usize = 12_000;

const TYPES: [&[u8]; 6] = [&[4], &[5], &[1], &[0x0C, 4], &[0x3C, 4, 5], &[0, 0, 0]];

const CONSTANTS: [&[u8]; 6] = [&[4, 2], &[7, 1], &[0], &[1], &[4, 2, 0], &[0xFF, 0xFF]];

/// Makes literals, and counts what the long ones take.
pub(super) struct Literals {
    left: usize,
}

impl Literals {
    pub(super) fn new() -> Literals {
        Literals { left: LONG }
    }

    /// Takes so many bytes from those kept for long literals, if they are there.
    pub(super) fn afford(&mut self, long: usize) -> bool {
        let enough = long <= self.left;
        if enough {
            self.left -= long;
        }
        enough
    }

    /// A type: its length and its bytes.
    pub(super) fn of_type(&mut self, rng: &mut Rng) -> Vec<u8> {
        let bytes = match rng.below(200) {
            0 if self.afford(256) => rng.bytes(255),
            1 if self.afford(256) => {
                let length = rng.range(6, 254);
                rng.bytes(length)
            }
            2..=15 => {
                let length = rng.range(1, 5);
                rng.bytes(length)
            }
            _ => rng.pick(&TYPES).to_vec(),
        };
        [vec![bytes.len() as u8], bytes].concat()
    }

    pub(super) fn opt(&mut self, rng: &mut Rng) -> Opt {
        rng.chance(30).then(|| self.of_type(rng))
    }

    /// A method call's two bytes, count and types.
    pub(super) fn method(&mut self, rng: &mut Rng) -> Vec<u8> {
        let mut literal = vec![rng.pick(&[12, 99, 0, 255]), rng.pick(&[1, 2, 0, 255])];
        let all = rng.below(400) == 0 && self.afford(600);
        let count = match all {
            true => 255,
            false => rng.weighted(&[(0, 60), (1, 25), (2, 10), (3, 5)]),
        };
        literal.push(count);
        for _ in 0..count {
            match all {
                true => literal.extend([1, 4]),
                false => literal.extend(self.of_type(rng)),
            }
        }
        literal
    }

    pub(super) fn byte_and_type(&mut self, rng: &mut Rng) -> Vec<u8> {
        let byte = rng.pick(&[4, 5, 0, 255]);
        [vec![byte], self.of_type(rng)].concat()
    }

    /// An id in a literal that binds and uses nothing.
    fn plain_id(&mut self, rng: &mut Rng) -> u32 {
        rng.pick(&[1, 2, 3, 7, 0, u32::MAX])
    }

    fn constant(&mut self, rng: &mut Rng) -> Tree {
        let class = rng.pick(&[0, 1, 2, 3, 3, 4, 5, 6, 6, 6]);
        let literal = match rng.below(100) {
            0 if self.afford(1000) => rng.bytes(1000),
            1..=8 => {
                let length = rng.range(1, 9);
                rng.bytes(length)
            }
            _ => rng.pick(&CONSTANTS).to_vec(),
        };
        constant(class, literal)
    }

    fn unparsed(&mut self, rng: &mut Rng) -> Tree {
        let literal = match rng.below(50) {
            0 if self.afford(500) => rng.bytes(500),
            1..=10 => {
                let length = rng.range(0, 12);
                rng.bytes(length)
            }
            _ => rng.pick(&[vec![], vec![0], vec![4, 2], vec![1, 2, 3]]),
        };
        unparsed(literal)
    }

    fn bits(&mut self, rng: &mut Rng) -> Tree {
        let length = match rng.below(50) {
            0 if self.afford(300) => 300,
            _ => rng.below(4),
        };
        let bits = (0..length).map(|_| rng.below(2) as u8).collect();
        tree(BOOL_COLLECTION, 0x85, bits, Vec::new())
    }

    /// A record without children that is no use.
    pub(super) fn leaf(&mut self, rng: &mut Rng) -> Tree {
        let shape = rng.weighted(&[
            (ZERO, 46),
            (CONST, 24),
            (UNPARSED, 4),
            (CONST_PLACEHOLDER, 4),
            (TAGGED_VAR, 4),
            (BOOL_COLLECTION, 3),
            (GET_VAR, 4),
            (DESERIALIZE_CONTEXT, 3),
            (DESERIALIZE_REGISTER, 2),
            (NONE_VALUE, 3),
            (CONCRETE_COLLECTION, 1),
            (TUPLE, 1),
            (SIGMA_COLLECTION, 1),
        ]);
        let literal = match shape {
            CONST => return self.constant(rng),
            UNPARSED => return self.unparsed(rng),
            BOOL_COLLECTION => return self.bits(rng),
            ZERO => {
                let others = rng.pick(&opcodes(ZERO)[1..]);
                let opcode = rng.weighted(&[(0xFE, 50), (others, 50)]);
                return tree(ZERO, opcode, Vec::new(), Vec::new());
            }
            CONST_PLACEHOLDER => self.plain_id(rng).to_le_bytes().to_vec(),
            TAGGED_VAR => {
                let mut literal = Vec::new();
                let id = self.plain_id(rng);
                put_id_opt(&mut literal, id, &self.opt(rng));
                literal
            }
            GET_VAR | DESERIALIZE_CONTEXT | DESERIALIZE_REGISTER => self.byte_and_type(rng),
            NONE_VALUE | CONCRETE_COLLECTION => self.of_type(rng),
            _ => Vec::new(),
        };
        tree(shape, rng.pick(opcodes(shape)), literal, Vec::new())
    }
}

/// The bytes of a tree's long literals.
pub(super) fn long_bytes(tree: &Tree) -> usize {
    let own = match tree.record.literal.len() {
        short if short <= SHORT => 0,
        long => long,
    };
    own + tree.children.iter().map(long_bytes).sum::<usize>()
}
