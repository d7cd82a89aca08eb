//! How much work a forest is for the original, which has no limits of its own: what is over these
//! caps is not sent through it.

use crate::forest::Tree;

/// `free_vars` calls itself twice for each scope inside a scope, so its time doubles with nesting.
pub const MAX_NESTING: usize = 14;
/// A projection first met in a sibling thunk is written inline at each use, with all below it, so
/// a tree can double without any nesting: `{1=n(z); 2=and(h,s1(1)); 3=p(s1(1),s1(1)); ...}`. The copy
/// gives a tree up that has more records than this, which is far over the 256 that are written.
pub const MAX_MADE: u64 = 20_000;

/// The largest number of scopes around a record: thunks and lambda bodies.
pub fn nesting(tree: &Tree) -> usize {
    let inner = tree.children.iter().enumerate().map(|(operand, child)| {
        let opens = match tree.record.opcode {
            0x95 => operand == 1 || operand == 2,
            0xED | 0xEC => operand == 1,
            0xD9 => true,
            _ => false,
        };
        usize::from(opens) + nesting(child)
    });
    inner.max().unwrap_or(0)
}
