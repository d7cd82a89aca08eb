//! Forests through one side, each once, for tools/count_instructions.py: it counts what runs inside the functions named
//! `counted_`. The forests come from outside and no thread is started: either would leave the allocator in another state
//! from run to run.

use std::hint::black_box;
use std::io;

use cse_library::{call, Numbers, MAX_WRITTEN, WORK_WORDS};
use cse_reference::check::accept;
use cse_reference::generate::Family;
use cse_reference::hex;
use cse_reference::oracle::{exprs, original};
use ergo_ser::opcode::Expr;

use crate::measure::written;

/// What is counted.
#[derive(Clone, Copy)]
pub enum Side {
    /// The original, from its own tree to its own tree; it takes accepted forests alone.
    Original,
    /// The main call, from bytes to bytes.
    Call,
}

impl Side {
    pub fn parse(name: &str) -> Option<Side> {
        match name {
            "original" => Some(Side::Original),
            "call" => Some(Side::Call),
            _ => None,
        }
    }
}

/// Prints the forests that are measured, in hex.
pub fn forests(family: Family, count: usize, seed: u64) {
    for (_, bytes) in written(family, seed).take(count) {
        println!("{}", hex::print(&bytes));
    }
}

/// Sends the forests on standard input, in hex, through a side, and prints how many records they have: none where
/// refused. False if a line is no forest for that side.
pub fn count(side: Side) -> bool {
    let text = io::read_to_string(io::stdin()).unwrap_or_default();
    let mut out = vec![0; MAX_WRITTEN];
    let mut work = vec![0; WORK_WORDS];
    let mut records = 0;
    for line in text.lines() {
        let Ok(bytes) = hex::parse(line) else {
            return false;
        };
        let forest = accept(&bytes);
        records += forest.as_ref().map_or(0, |forest| forest.size());
        match (side, forest) {
            (Side::Call, _) => {
                black_box(counted_call(&bytes, &mut out, &mut work));
            }
            (Side::Original, Ok(forest)) => {
                let (root, env) = exprs(&forest);
                black_box(counted_original(root, &env));
            }
            (Side::Original, Err(_)) => return false,
        }
    }
    println!("{records}");
    true
}

#[inline(never)]
fn counted_original(root: Expr, env: &[Expr]) -> Expr {
    original(root, env)
}

#[inline(never)]
fn counted_call(forest: &[u8], out: &mut [u8], work: &mut [u32]) -> Numbers {
    call(forest, out, work)
}
