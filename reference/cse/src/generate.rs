//! Seeded forests that are accepted: none of refusals 2 to 10 and 16 applies to them, by the way
//! they are made. Refusals 11 to 14 may.

mod builder;
mod counted;
mod flat;
mod limits;
mod literals;
mod many_scopes;
mod marks;
mod one_shape;
mod plants;
mod profile;
pub mod records;
mod rng;
mod room;
mod rules;
mod savings;
mod templates;

pub use one_shape::near_misses;
pub use rng::Rng;
pub use templates::Way;

use crate::forest::Forest;

/// What a generated forest is rich in.
#[derive(Clone, Copy, PartialEq, Eq, Debug)]
pub enum Kind {
    /// Up to 12 records.
    Small,
    /// Up to 60 records.
    Medium,
    /// Up to 256 records, often exactly 256.
    Large,
    /// Up to 64 deep, often exactly 64.
    Deep,
    /// Many children, many trees.
    Wide,
    /// IF, ED and EC inside one another, with equal parts in sibling thunks.
    Thunks,
    /// Lambdas with 0 to 15 arguments, inside and beside one another.
    Lambdas,
    /// Fields of tuples and others, met again in sibling thunks.
    Projections,
    /// Blocks, definitions and uses.
    Blocks,
    /// A forest of up to 65,535 bytes, or a written tree that is near 256 records, near 65,535 bytes
    /// or near 64 deep, on either side.
    NearLimit,
    /// Near 2,048 readings, on either side.
    Readings,
    /// Near 512 symbols, on either side.
    Symbols,
    /// Up to 63 scopes inside one another: out of the original's reach, whose time doubles with
    /// each. All other kinds but flat stay at 12.
    Scopes,
    /// Environment trees, few uses of what is defined, and fields: much that the root does not reach.
    Unreached,
    /// Free lists with over 4,096 entries in all, or near so many, and scopes inside one another after
    /// them: the main call stores so many entries, and works other lists out when it needs them.
    Flat,
    /// One tree without lambda and field, rich in IF, ED, EC and definitions: the forests of request A.8. Up to 60 records, at
    /// times up to 256.
    Simple,
    /// Definitions that save bytes, and some that do not: request A.1.
    Savings,
    /// Each rule of request A.4, `no definition written` among them.
    Rules,
    /// Written trees of up to 256 records, full of scopes: lambdas with next to nothing in them, most of them written anew at
    /// each use, and thunks that each have a definition.
    ManyScopes,
    /// Any opcode under any shape that it may have, and what comes near refusal 16: request A.9.
    OneShape,
}

impl Kind {
    pub const ALL: [Kind; 20] = [
        Kind::Small,
        Kind::Medium,
        Kind::Large,
        Kind::Deep,
        Kind::Wide,
        Kind::Thunks,
        Kind::Lambdas,
        Kind::Projections,
        Kind::Blocks,
        Kind::NearLimit,
        Kind::Readings,
        Kind::Symbols,
        Kind::Scopes,
        Kind::Unreached,
        Kind::Flat,
        Kind::Simple,
        Kind::Savings,
        Kind::Rules,
        Kind::ManyScopes,
        Kind::OneShape,
    ];

    pub fn name(self) -> &'static str {
        match self {
            Kind::Small => "small",
            Kind::Medium => "medium",
            Kind::Large => "large",
            Kind::Deep => "deep",
            Kind::Wide => "wide",
            Kind::Thunks => "thunks",
            Kind::Lambdas => "lambdas",
            Kind::Projections => "projections",
            Kind::Blocks => "blocks",
            Kind::NearLimit => "near-limit",
            Kind::Readings => "readings",
            Kind::Symbols => "symbols",
            Kind::Scopes => "scopes",
            Kind::Unreached => "unreached",
            Kind::Flat => "flat",
            Kind::Simple => "simple",
            Kind::Savings => "savings",
            Kind::Rules => "rules",
            Kind::ManyScopes => "many-scopes",
            Kind::OneShape => "one-shape",
        }
    }

    /// The kind of that name.
    pub fn parse(name: &str) -> Option<Kind> {
        Kind::ALL.into_iter().find(|kind| kind.name() == name)
    }
}

/// The forests of a kind, with marks on their constants or without.
#[derive(Clone, Copy, PartialEq, Eq, Debug)]
pub struct Family {
    pub kind: Kind,
    pub marked: bool,
}

/// What stands before a kind's name for its forests with marks.
const MARKED: &str = "marked-";

impl Family {
    pub fn name(self) -> String {
        let before = if self.marked { MARKED } else { "" };
        format!("{before}{}", self.kind.name())
    }

    /// The family of that name: a kind's, or that behind `marked-`.
    pub fn parse(name: &str) -> Option<Family> {
        let kind = name.strip_prefix(MARKED);
        Some(Family {
            kind: Kind::parse(kind.unwrap_or(name))?,
            marked: kind.is_some(),
        })
    }

    /// The accepted forest of that seed.
    pub fn forest(self, seed: u64) -> Forest {
        match self.marked {
            true => with_marks(seed, self.kind),
            false => accepted(seed, self.kind),
        }
    }
}

impl From<Kind> for Family {
    fn from(kind: Kind) -> Family {
        Family {
            kind,
            marked: false,
        }
    }
}

/// The accepted forest of that seed and kind, with marks for every third seed.
pub fn at_times_marked(seed: u64, kind: Kind) -> Forest {
    let marked = seed % 3 == 0;
    Family { kind, marked }.forest(seed)
}

/// The tree shapes of [`accepted`], other constants in place of some leaves, and marks.
fn with_marks(seed: u64, kind: Kind) -> Forest {
    let mut forest = accepted(seed, kind);
    // Another stream than the forest's own.
    let mut rng = Rng::new(stream(seed, kind) ^ 0x3A4B_ED00);
    marks::put_marks(&mut rng, &mut forest);
    forest
}

/// Kinds with the same seed draw from different streams.
fn stream(seed: u64, kind: Kind) -> u64 {
    seed ^ ((kind as u64 + 1) << 56)
}

/// The accepted forest of that seed and kind, all its marks 0.
pub fn accepted(seed: u64, kind: Kind) -> Forest {
    let mut rng = Rng::new(stream(seed, kind));
    match kind {
        Kind::NearLimit => limits::near_limit(&mut rng),
        Kind::Readings => counted::near_readings(&mut rng),
        Kind::Symbols => counted::near_symbols(&mut rng),
        Kind::Flat => flat::forest(&mut rng),
        Kind::Savings => savings::forest(&mut rng),
        Kind::Rules => rules::forest(&mut rng),
        Kind::ManyScopes => many_scopes::forest(&mut rng),
        Kind::OneShape => one_shape::forest(&mut rng),
        Kind::Scopes if rng.chance(40) => limits::nested(&mut rng),
        _ => builder::forest(rng, kind),
    }
}
