//! The archive lister of request A.9: the lister's text, but for forests that are refused with 16.

use crate::check::{accept, Refusal};
use crate::lister::listing;
use crate::oracle::{by_original, NoAnswer};

/// The archive lister's text, by the original, as far as it ends in time.
pub fn archive_lister(forest: &[u8]) -> Result<String, NoAnswer> {
    if let Some(opcode) = mixed_opcode(forest) {
        return Ok(format!("mixed {opcode:02X}\n"));
    }
    let listing = listing(forest)?;
    by_original(listing.work)?;
    Ok(listing.text)
}

/// The opcode at the place of 16, where a forest is refused with it.
fn mixed_opcode(forest: &[u8]) -> Option<u8> {
    match accept(forest) {
        Err(Refusal { number: 16, place }) => Some(opcode_at(forest, place as usize)),
        _ => None,
    }
}

/// Of a forest whose directory is right: the pair of the record says where it starts, and its second byte is the opcode.
fn opcode_at(forest: &[u8], record: usize) -> u8 {
    let pair = 4 + 4 * record;
    let offset = u16::from_le_bytes([forest[pair], forest[pair + 1]]);
    forest[usize::from(offset) + 1]
}
