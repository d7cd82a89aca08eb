//! Literals in parts, so that one part can be made wrong.

use crate::generate::records::*;
use crate::generate::Rng;

/// A part of a literal.
pub(super) struct Part {
    kind: Kind,
    pub(super) bytes: Vec<u8>,
}

#[derive(Clone, Copy)]
enum Kind {
    Plain,
    Type,
    /// With a type or without.
    Opt(bool),
    /// How many types follow.
    Count,
}

impl Part {
    /// The byte that says how long a type is.
    pub(super) fn length(&mut self) -> &mut u8 {
        match self.kind {
            Kind::Opt(_) => &mut self.bytes[1],
            _ => &mut self.bytes[0],
        }
    }
}

pub(super) fn joined(parts: &[Part]) -> Vec<u8> {
    parts.iter().flat_map(|part| part.bytes.clone()).collect()
}

fn plain_bytes(rng: &mut Rng, count: usize) -> Part {
    Part {
        kind: Kind::Plain,
        bytes: rng.bytes(count),
    }
}

fn a_type(rng: &mut Rng) -> Part {
    let length = rng.pick(&[1, 1, 1, 2, 3, 4, 9, 255]);
    let mut bytes = vec![length as u8];
    bytes.extend(rng.bytes(length));
    Part {
        kind: Kind::Type,
        bytes,
    }
}

fn an_opt(rng: &mut Rng) -> Part {
    let typed = rng.chance(60);
    let mut bytes = vec![u8::from(typed)];
    if typed {
        bytes.extend(a_type(rng).bytes);
    }
    Part {
        kind: Kind::Opt(typed),
        bytes,
    }
}

pub(super) fn arguments(rng: &mut Rng, count: u8) -> Vec<Part> {
    (0..count)
        .flat_map(|_| [plain_bytes(rng, 4), an_opt(rng)])
        .collect()
}

/// The parts of a right literal, none where it is empty or has no parts, and the aux with it.
pub(super) fn parts(rng: &mut Rng, shape: u8) -> (Vec<Part>, u8) {
    let parts = match shape {
        VAL_USE | CONST_PLACEHOLDER => vec![plain_bytes(rng, 4)],
        TAGGED_VAR | VAL_DEF => vec![plain_bytes(rng, 4), an_opt(rng)],
        FUNC_VALUE => {
            let count = rng.pick(&[1, 1, 2, 3, 14, 15]);
            return (arguments(rng, count), count);
        }
        METHOD_CALL => {
            let count = rng.pick(&[0, 1, 1, 2, 5]);
            let mut parts = vec![plain_bytes(rng, 2)];
            parts.push(Part {
                kind: Kind::Count,
                bytes: vec![count],
            });
            parts.extend((0..count).map(|_| a_type(rng)));
            parts
        }
        CONCRETE_COLLECTION | NONE_VALUE | NUMERIC_CAST => vec![a_type(rng)],
        SELECT_FIELD => vec![plain_bytes(rng, 1)],
        EXTRACT_REGISTER_AS | GET_VAR | DESERIALIZE_CONTEXT | DESERIALIZE_REGISTER => {
            vec![plain_bytes(rng, 1), a_type(rng)]
        }
        _ => Vec::new(),
    };
    (parts, 0)
}

/// How a literal can be wrong.
#[derive(Clone, Copy)]
pub(super) enum Way {
    Cut,
    Empty,
    Longer,
    Shorter,
    OptByte,
    NoType,
    Types,
    Arguments,
}

pub(super) fn ways_to_spoil(part: &mut Part) -> Vec<Way> {
    let mut ways = Vec::new();
    match part.kind {
        Kind::Plain => {}
        Kind::Count => ways.push(Way::Types),
        Kind::Opt(false) => ways.extend([Way::OptByte, Way::NoType]),
        Kind::Opt(true) => ways.push(Way::OptByte),
        Kind::Type => {}
    }
    if matches!(part.kind, Kind::Type | Kind::Opt(true)) {
        ways.push(Way::Empty);
        ways.extend((*part.length() < 255).then_some(Way::Longer));
        ways.extend((*part.length() > 1).then_some(Way::Shorter));
    }
    ways
}
