//! Where the subtrees of a forest end, from the paper's words: the check "also hands out, for each record, the number of the
//! first record after its subtree. Of its 256 entries those past the last record, and all after a refusal, are zero".
//! Records are numbered over all trees, from 0, in file order.

use crate::check::accept;
use crate::forest::{Forest, Tree};

/// As many as a forest may have records.
pub const ENTRIES: usize = 256;

/// For each record the number of the first after its subtree; of the last that is the record count.
pub fn ends(forest: &Forest) -> Vec<u16> {
    let mut ends = Vec::new();
    for tree in &forest.trees {
        push(tree, &mut ends);
    }
    ends
}

fn push(tree: &Tree, ends: &mut Vec<u16>) {
    let number = ends.len();
    ends.push((number + tree.size()) as u16);
    for child in &tree.children {
        push(child, ends);
    }
}

/// What the check of a forest hands out.
pub fn entries(bytes: &[u8]) -> [u16; ENTRIES] {
    let mut entries = [0; ENTRIES];
    if let Ok(forest) = accept(bytes) {
        let ends = ends(&forest);
        entries[..ends.len()].copy_from_slice(&ends);
    }
    entries
}

/// Whether a record ends neither at the next one nor where its tree does: no shorter rule gives all ends of such a forest.
pub fn telling(ends: &[u16]) -> bool {
    let mut tree_end = 0;
    ends.iter().enumerate().any(|(i, &end)| {
        if i == usize::from(tree_end) {
            tree_end = end;
        }
        usize::from(end) != i + 1 && end != tree_end
    })
}
