//! Where the forests of a run come from.

use cse_reference::damage::{damaged, two_shapes};
use cse_reference::generate::Family;

#[derive(Clone, Copy, PartialEq, Eq, Debug)]
pub enum Source {
    /// Accepted ones.
    Family(Family),
    /// With a fault, of each number of a check.
    Damaged,
    /// An opcode has two shapes.
    TwoShapes,
}

impl Source {
    pub fn parse(kind: &str) -> Option<Source> {
        match kind {
            "damaged" => Some(Source::Damaged),
            "two-shapes" => Some(Source::TwoShapes),
            kind => Some(Source::Family(Family::parse(kind)?)),
        }
    }

    pub fn name(self) -> String {
        match self {
            Source::Family(family) => family.name(),
            Source::Damaged => "damaged".to_string(),
            Source::TwoShapes => "two-shapes".to_string(),
        }
    }

    /// The family, where forests are accepted.
    pub fn family(self) -> Option<Family> {
        match self {
            Source::Family(family) => Some(family),
            Source::Damaged | Source::TwoShapes => None,
        }
    }

    /// The forest of a seed.
    pub fn forest(self, seed: u64) -> Vec<u8> {
        match self {
            Source::Family(family) => family.forest(seed).to_bytes(),
            Source::Damaged => damaged(seed).bytes,
            Source::TwoShapes => two_shapes(seed).0.bytes,
        }
    }
}

#[cfg(test)]
mod tests {
    use super::*;

    #[test]
    fn each_name_is_that_of_its_source() {
        for name in ["damaged", "two-shapes", "small", "marked-one-shape"] {
            assert_eq!(
                Source::parse(name).map(Source::name),
                Some(name.to_string())
            );
        }
        assert_eq!(Source::parse("marked-damaged"), None);
    }
}
