//! The values of constants, as bytes, and their marks.

use std::convert::Infallible;

use ergo_primitives::writer::VlqWriter;

use crate::sigma_type::SigmaType;

/// How many classes a constant's type may have, from 0 on.
pub const CLASSES: u8 = 7;

/// How many marks a constant may have, from 0 on.
pub const MARKS: u8 = 36;

/// A constant's literal, not looked into, and its mark, below [`MARKS`].
#[derive(Clone, PartialEq, Eq, Debug)]
pub struct SigmaValue {
    pub bytes: Vec<u8>,
    pub mark: u8,
}

/// A constant's aux: class and mark in one byte (request A.5).
pub fn constant_aux(class: u8, mark: u8) -> u8 {
    class + CLASSES * mark
}

/// Writes a constant's aux, then its literal: constants of equal bytes and different class or mark
/// are not equal (document 01 counts aux).
pub fn write_constant(
    writer: &mut VlqWriter,
    tpe: &SigmaType,
    val: &SigmaValue,
) -> Result<(), Infallible> {
    writer.put_u8(constant_aux(tpe.class(), val.mark));
    writer.put_bytes(&val.bytes);
    Ok(())
}
