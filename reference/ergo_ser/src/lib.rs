//! A stand-in for the crate of this name: the payloads that the cse pass matches, with types and
//! values kept as the forest's bytes.

pub mod opcode;
pub mod sigma_type;
pub mod sigma_value;
