//! The room that a subtree has, and parts that have room together.

use crate::forest::Tree;

/// How much a subtree may take up: at least one record and one level.
#[derive(Clone, Copy)]
pub(super) struct Room {
    pub(super) records: usize,
    pub(super) depth: usize,
    pub(super) scopes: usize,
}

impl Room {
    /// What is left for all children of a record.
    pub(super) fn inside(self) -> Room {
        Room {
            records: self.records - 1,
            depth: self.depth - 1,
            ..self
        }
    }

    /// The room of a body or a thunk.
    pub(super) fn scope(self) -> Room {
        Room {
            scopes: self.scopes - 1,
            ..self
        }
    }

    pub(super) fn records(self, records: usize) -> Room {
        Room { records, ..self }
    }
}

/// Parts, one after the other, until they have as many records as are wanted; none that would bring them over `most`.
pub(super) fn parts(wanted: usize, most: usize, mut make: impl FnMut() -> Tree) -> Vec<Tree> {
    let mut parts = Vec::new();
    let mut records = 0;
    while records < wanted {
        let part = make();
        if records + part.size() > most {
            break;
        }
        records += part.size();
        parts.push(part);
    }
    parts
}
