//! Templates, from the papers' words: a constant with a mark, which is one with an aux over 6, is a parameter, and the
//! aux says which; in a template a parameter has one literal wherever it stands. Over records as they lie in the bytes,
//! so that filling shares nothing with what makes and writes forests.

use std::collections::BTreeMap;

use crate::forest::CLASSES;
use crate::oracle::{answer_deep, NoAnswer, MAX_OUTPUT, MIN_WORK_WORDS};

/// Literals of parameters, by aux; none is empty.
pub type Filling = BTreeMap<u8, Vec<u8>>;

/// A record whose parameter had another literal earlier.
#[derive(Clone, Copy, PartialEq, Eq, Debug)]
pub struct TwoValues {
    pub mark: u8,
    pub place: usize,
}

const CONST: u8 = 0;
const VAL_DEF: u8 = 10;
/// A constant with this aux or a lower one has no mark.
const UNMARKED: u8 = 6;
/// Both counts.
const HEADER: usize = 4;
/// The fixed part of a record: shape, opcode, child count, aux.
const FIXED: usize = 5;

/// The records of an accepted forest or a written tree, in file order.
fn records(bytes: &[u8]) -> impl Iterator<Item = &[u8]> {
    let word = |at: usize| usize::from(u16::from_le_bytes([bytes[at], bytes[at + 1]]));
    (0..word(2)).map(move |index| {
        let pair = HEADER + 4 * index;
        &bytes[word(pair)..][..word(pair + 2)]
    })
}

/// The aux of a parameter; none of another record.
fn parameter(record: &[u8]) -> Option<u8> {
    let (shape, aux) = (record[0], record[4]);
    (shape == CONST && aux > UNMARKED).then_some(aux)
}

/// An accepted forest or a written tree with other literals at the parameters that the filling has, and the directory that
/// follows from them. Offsets and lengths are cut to 16 bits: a forest that is too long for them is refused for that.
pub fn fill(bytes: &[u8], filling: &Filling) -> Vec<u8> {
    let filled: Vec<Vec<u8>> = records(bytes)
        .map(|record| {
            let (fixed, literal) = record.split_at(FIXED);
            let value = parameter(record).and_then(|aux| filling.get(&aux));
            [fixed, value.map_or(literal, Vec::as_slice)].concat()
        })
        .collect();
    let mut out = bytes[..HEADER].to_vec();
    let mut offset = HEADER + 4 * filled.len();
    for record in &filled {
        out.extend((offset as u16).to_le_bytes());
        out.extend((record.len() as u16).to_le_bytes());
        offset += record.len();
    }
    out.extend(filled.concat());
    out
}

/// What each parameter of an accepted forest or a written tree stands for, or the first record that has another literal
/// than its parameter had earlier.
pub fn values(bytes: &[u8]) -> Result<Filling, TwoValues> {
    let mut values = Filling::new();
    for (place, record) in records(bytes).enumerate() {
        let Some(aux) = parameter(record) else {
            continue;
        };
        let literal = &record[FIXED..];
        if values.entry(aux).or_insert_with(|| literal.to_vec()) != literal {
            let mark = aux / CLASSES;
            return Err(TwoValues { mark, place });
        }
    }
    Ok(values)
}

/// The line that the program `template` prints: the call's refusal, or else which record has a second value, or how many
/// definitions the written tree and how many parameters the forest has.
pub fn line(forest: &[u8]) -> Result<String, NoAnswer> {
    let given = answer_deep(forest, MAX_OUTPUT, MIN_WORK_WORDS)?.answer;
    if given.number != 0 {
        return Ok(format!("refused {} at {}\n", given.number, given.place));
    }
    Ok(match values(forest) {
        Err(TwoValues { mark, place }) => format!("two values of mark {mark} at {place}\n"),
        Ok(values) => {
            let definitions = records(&given.tree).filter(|record| record[0] == VAL_DEF);
            let (definitions, parameters) = (definitions.count(), values.len());
            format!("template: {definitions} definitions, {parameters} parameters\n")
        }
    })
}
