//! Refusals 4 and 5: a record against its shape, and its opcode against its shape.

use super::literal::{arguments, joined, parts, ways_to_spoil, Way};
use super::nodes::{child_counts, MANY};
use super::{base, Fault, File, Raw};
use crate::forest::{constant_aux, CLASSES, MARKS};
use crate::generate::records::*;
use crate::generate::Rng;

/// Refusal 4: one record gets a child count, an aux, a shape or a literal that it may not have.
pub(super) fn shape(rng: &mut Rng) -> Option<Fault> {
    let mut file = File::of(&base(rng));
    let place = rng.below(file.records.len());
    put_any_shape(rng, &mut file.records[place]);
    let record = &mut file.records[place];
    let way = match rng.below(8) {
        0 => wrong_shape(rng, record),
        1 | 2 => wrong_count(rng, record)?,
        3 => wrong_aux(rng, record),
        4 => longer_literal(rng, record)?,
        _ => wrong_literal(rng, record)?,
    };
    // Check 5 would find this one.
    if rng.chance(20) {
        let other = rng.below(file.records.len());
        file.records[other].opcode = rng.pick(&[0x00, 0x72, 0x95]);
    }
    let bytes = file.bytes();
    Some(Fault { bytes, place, way })
}

/// Most of the time, puts a right record of any shape there: whether trees close is checked later.
fn put_any_shape(rng: &mut Rng, record: &mut Raw) {
    if rng.chance(75) {
        let shape = rng.below(SHAPES as usize) as u8;
        *record = sample(rng, shape);
    }
}

fn wrong_shape(rng: &mut Rng, record: &mut Raw) -> &'static str {
    let any = rng.range(27, 255) as u8;
    record.shape = rng.pick(&[27, 28, 255, any]);
    "no such shape"
}

fn wrong_count(rng: &mut Rng, record: &mut Raw) -> Option<&'static str> {
    let (least, most) = child_counts(record.shape);
    let any = rng.range(0, MANY);
    let counts = [
        least.wrapping_sub(1),
        most + 1,
        0,
        0x0100 + least,
        MANY,
        any,
    ];
    let count = rng.pick(&counts);
    // Below none, and above what sixteen bits hold, there is nothing to write.
    if count > MANY || (least..=most).contains(&count) {
        return None;
    }
    record.count = count;
    Some(match record.shape {
        BLOCK_VALUE | METHOD_CALL | FUNC_APPLY => "no children where one is needed",
        _ if count < least => "too few children",
        _ => "too many children",
    })
}

fn wrong_aux(rng: &mut Rng, record: &mut Raw) -> &'static str {
    // The two shapes that have an aux would come too seldom.
    if rng.chance(50) {
        let shape = rng.pick(&[CONST, FUNC_VALUE]);
        *record = sample(rng, shape);
    }
    let any = rng.range(16, 255) as u8;
    match record.shape {
        CONST => {
            // 252 to 255: mark 36, as far as a byte reaches.
            record.aux = rng.range((CLASSES * MARKS).into(), 255) as u8;
            "class and mark"
        }
        FUNC_VALUE => {
            // As many arguments as it says: only their number is wrong.
            record.aux = rng.pick(&[16, 17, any, 255]);
            record.literal = joined(&arguments(rng, record.aux));
            "too many arguments"
        }
        _ => {
            record.aux = rng.pick(&[1, 3, 7, 128, 251, any]);
            "aux not 0"
        }
    }
}

/// Every literal but three tells where it ends, so nothing longer is right.
fn longer_literal(rng: &mut Rng, record: &mut Raw) -> Option<&'static str> {
    if matches!(record.shape, CONST | UNPARSED | BOOL_COLLECTION) {
        return None;
    }
    let extra = rng.range(1, 6);
    record.literal.extend(rng.bytes(extra));
    Some("bytes left over")
}

/// A literal that is wrong for the record's shape in another way, if there is one.
fn wrong_literal(rng: &mut Rng, record: &mut Raw) -> Option<&'static str> {
    match record.shape {
        CONST => {
            record.literal.clear();
            return Some("constant without bytes");
        }
        BOOL_COLLECTION => {
            let any = rng.range(2, 255) as u8;
            let at = rng.below(record.literal.len() + 1);
            record.literal.insert(at, rng.pick(&[2, 255, any]));
            return Some("no bit");
        }
        _ => {}
    }
    let (mut parts, aux) = parts(rng, record.shape);
    let mut ways = Vec::new();
    for (at, part) in parts.iter_mut().enumerate() {
        ways.extend(ways_to_spoil(part).into_iter().map(|way| (at, way)));
    }
    // What a last part lacks or has too much is not made up for by a next one.
    let last = parts.len().checked_sub(1)?;
    ways.retain(|(at, way)| {
        *at == last || !matches!(way, Way::Longer | Way::Shorter | Way::NoType)
    });
    ways.push((0, Way::Cut));
    if record.shape == FUNC_VALUE {
        // As often as what concerns one of the arguments.
        ways.extend(vec![(0, Way::Arguments); parts.len()]);
    }
    let (at, way) = rng.pick(&ways);
    record.aux = aux;
    let any = rng.range(2, 255) as u8;
    let text = match way {
        Way::Cut => {
            // No proper part from the front is right either.
            let mut literal = joined(&parts);
            literal.truncate(rng.below(literal.len()));
            record.literal = literal;
            return Some("bytes missing");
        }
        Way::Empty => {
            *parts[at].length() = 0;
            "type of length 0"
        }
        Way::Longer => {
            *parts[at].length() += 1;
            "type longer than the bytes"
        }
        Way::Shorter => {
            *parts[at].length() -= 1;
            "type shorter than the bytes"
        }
        Way::OptByte => {
            parts[at].bytes[0] = rng.pick(&[2, 255, any]);
            "opt neither 0 nor 1"
        }
        Way::NoType => {
            parts[at].bytes[0] = 1;
            "opt 1 without type"
        }
        Way::Types => {
            off_by_one(rng, &mut parts[at].bytes[0], 255);
            "count of types"
        }
        Way::Arguments => {
            off_by_one(rng, &mut record.aux, 15);
            "count of arguments"
        }
    };
    record.literal = joined(&parts);
    Some(text)
}

fn off_by_one(rng: &mut Rng, count: &mut u8, most: u8) {
    match *count > 0 && (*count == most || rng.chance(50)) {
        true => *count -= 1,
        false => *count += 1,
    }
}

/// A record that is right for its shape.
fn sample(rng: &mut Rng, shape: u8) -> Raw {
    let (parts, mut aux) = parts(rng, shape);
    let mut literal = joined(&parts);
    match shape {
        CONST => {
            aux = right_aux(rng);
            literal = rng.bytes(3);
        }
        UNPARSED => literal = rng.bytes(3),
        BOOL_COLLECTION => literal = vec![0, 1, 1],
        _ => {}
    }
    let (least, most) = child_counts(shape);
    Raw {
        shape,
        opcode: rng.pick(opcodes(shape)),
        count: rng.range(least, most.min(least + 2)),
        aux,
        literal,
    }
}

/// A constant's aux: any, and often with the highest mark.
fn right_aux(rng: &mut Rng) -> u8 {
    let last = MARKS - 1;
    let any = rng.below((CLASSES * MARKS).into()) as u8;
    rng.pick(&[
        constant_aux(0, last),
        constant_aux(CLASSES - 1, last),
        any,
        any,
    ])
}

/// Opcodes and shapes that stand only together.
const TOGETHER: [(u8, u8); 6] = [
    (0x72, VAL_USE),
    (0xD6, VAL_DEF),
    (0xD8, BLOCK_VALUE),
    (0xD9, FUNC_VALUE),
    (0x8C, SELECT_FIELD),
    (0x86, TUPLE),
];

/// Opcodes that have one shape, which has other opcodes too.
const ONE_WAY: [(u8, u8); 8] = [
    (0x95, THREE),
    (0xED, TWO),
    (0xEC, TWO),
    (0xA3, ZERO),
    (0xA4, ZERO),
    (0xA5, ZERO),
    (0xA7, ZERO),
    (0xDD, ZERO),
];

/// Refusal 5: one record gets an opcode that its shape may not have.
pub(super) fn opcode(rng: &mut Rng) -> Option<Fault> {
    let mut file = File::of(&base(rng));
    let place = rng.below(file.records.len());
    put_any_shape(rng, &mut file.records[place]);
    let record = &mut file.records[place];
    let shape = record.shape;
    let any = rng.range(1, 255) as u8;
    let way = match rng.below(5) {
        0 if shape == CONST || shape == UNPARSED => {
            record.opcode = any;
            "shape of 00 with another opcode"
        }
        1 if shape != CONST && shape != UNPARSED => {
            record.opcode = 0x00;
            "00 with another shape"
        }
        2 if TOGETHER.iter().any(|(_, with)| *with == shape) => {
            if TOGETHER.contains(&(any, shape)) {
                return None;
            }
            record.opcode = any;
            "shape without its opcode"
        }
        3 => {
            let (opcode, with) = rng.pick(&TOGETHER);
            if with == shape {
                return None;
            }
            record.opcode = opcode;
            "opcode without its shape"
        }
        4 => {
            let (opcode, with) = rng.pick(&ONE_WAY);
            if with == shape {
                return None;
            }
            record.opcode = opcode;
            "opcode of another shape"
        }
        _ => return None,
    };
    // Check 6 would find this one.
    if rng.chance(20) {
        file.trees = rng.range(1, 16);
    }
    let bytes = file.bytes();
    Some(Fault { bytes, place, way })
}
