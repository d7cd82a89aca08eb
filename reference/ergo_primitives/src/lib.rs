//! A stand-in for the crate of this name, with just what the cse pass uses.

pub mod writer;
