//! The original cse pass, unchanged, run on forests, and an independent reading of document 01 (the
//! paper with the rules) for what the original does not do: checks, limits, unfolding, templates,
//! values, where subtrees end, what definitions save, the rule beside each symbol, and the archive lister.

pub mod archive;
pub mod check;
pub mod convert;
pub mod cost;
pub mod damage;
pub mod ends;
pub mod evaluate;
pub mod forest;
pub mod generate;
pub mod hex;
pub mod limits;
pub mod lister;
pub mod notation;
pub mod oracle;
pub mod rows;
pub mod rules;
pub mod savings;
pub mod template;
pub mod trees;
pub mod unfold;

// Copied byte for byte; cse.sha256 holds their sums. So no tool may format or mend them.
#[rustfmt::skip]
#[allow(warnings, clippy::all)]
mod cse;

// The same pass, with free lists remembered (build.rs).
#[allow(warnings, clippy::all)]
mod remembering {
    include!(concat!(env!("OUT_DIR"), "/remembering/mod.rs"));
}
