//! Types: the classes of constants that the gate tells apart, and all others as bytes.

use std::convert::Infallible;

use ergo_primitives::writer::VlqWriter;

/// A type. The scalar variants occur only as the class of a constant. A type inside a literal is
/// not looked into (document 01), so it is always `Opaque`, whatever its bytes are.
#[derive(Clone, PartialEq, Eq, Debug)]
pub enum SigmaType {
    SBoolean,
    SByte,
    SShort,
    SInt,
    SLong,
    SString,
    /// At most 255 bytes, and at least 1 inside a literal; none as the class "other" of a constant.
    Opaque(Vec<u8>),
}

impl SigmaType {
    /// The class number of a constant of this type (document 01, shape 0).
    pub fn class(&self) -> u8 {
        match self {
            SigmaType::SBoolean => 0,
            SigmaType::SByte => 1,
            SigmaType::SShort => 2,
            SigmaType::SInt => 3,
            SigmaType::SLong => 4,
            SigmaType::SString => 5,
            SigmaType::Opaque(_) => 6,
        }
    }

    /// The type of a constant of class 0 to 6.
    pub fn of_class(class: u8) -> Option<Self> {
        Some(match class {
            0 => SigmaType::SBoolean,
            1 => SigmaType::SByte,
            2 => SigmaType::SShort,
            3 => SigmaType::SInt,
            4 => SigmaType::SLong,
            5 => SigmaType::SString,
            6 => SigmaType::Opaque(Vec::new()),
            _ => return None,
        })
    }
}

/// Writes a type as a literal holds it: its length in a byte, then its bytes. A scalar, which no
/// literal holds, is a 0 and its class, so that no two types are written alike.
pub fn write_type(writer: &mut VlqWriter, tpe: &SigmaType) -> Result<(), Infallible> {
    match tpe {
        SigmaType::Opaque(bytes) => {
            writer.put_u8(bytes.len() as u8);
            writer.put_bytes(bytes);
        }
        scalar => {
            writer.put_u8(0);
            writer.put_u8(scalar.class());
        }
    }
    Ok(())
}
