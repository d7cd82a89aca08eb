//! The main call of document 01, with the original deciding the tree.

use std::fmt;
use std::panic::{catch_unwind, resume_unwind, AssertUnwindSafe};
use std::thread;

use crate::check::{accept, Refusal};
use crate::convert::{to_expr, to_tree};
use crate::cost::{nesting, MAX_MADE, MAX_NESTING};
use crate::cse::{cse, Interner, SymId};
use crate::forest::{Forest, Tree};
use crate::limits::{count, Counts};
use crate::remembering;
use ergo_ser::opcode::Expr;

pub const MIN_WORK_WORDS: usize = 16_384;
pub const MAX_OUTPUT: usize = 65_535;
const MAX_RECORDS: usize = 256;
const MAX_DEPTH: usize = 64;

/// Far more than a forest of 256 records needs; a test thread may have little.
const STACK: usize = 64 << 20;

/// What the main call gives, and the tree it writes. A refusal has zeros and no tree.
#[derive(Clone, PartialEq, Eq, Debug)]
pub struct Answer {
    pub number: u32,
    pub place: u32,
    pub written_length: u32,
    pub symbols: u32,
    pub readings: u32,
    pub tree: Vec<u8>,
}

/// Why there is no answer to compare with.
#[derive(Clone, PartialEq, Eq, Debug)]
pub enum NoAnswer {
    Skipped(Skipped),
    /// The original made another number of symbols than document 01 says: one of them was misread.
    SymbolCount {
        paper: u32,
        original: u32,
    },
    /// The copy that remembers free lists made another tree than the original.
    Copies,
}

/// Why a forest is not sent through the original.
#[derive(Clone, PartialEq, Eq, Debug)]
pub enum Skipped {
    /// So many nested scopes, over [`MAX_NESTING`].
    Nesting(usize),
    /// Over [`MAX_MADE`] records in the written tree.
    TooLarge,
}

impl fmt::Display for NoAnswer {
    fn fmt(&self, f: &mut fmt::Formatter<'_>) -> fmt::Result {
        match self {
            NoAnswer::Skipped(Skipped::Nesting(depth)) => {
                write!(f, "{depth} nested scopes, over {MAX_NESTING}")
            }
            NoAnswer::Skipped(Skipped::TooLarge) => {
                write!(f, "over {MAX_MADE} written records")
            }
            NoAnswer::SymbolCount { paper, original } => {
                write!(
                    f,
                    "{paper} symbols by document 01, {original} by the original"
                )
            }
            NoAnswer::Copies => write!(f, "the copy made another tree than the original"),
        }
    }
}

impl std::error::Error for NoAnswer {}

/// An answer and, where a tree was made for it, what that took.
#[derive(Clone, PartialEq, Eq, Debug)]
pub struct Told {
    pub answer: Answer,
    pub work: Option<Work>,
}

/// What making a tree took.
#[derive(Clone, Copy, PartialEq, Eq, Debug)]
pub struct Work {
    /// How many scopes lie inside one another.
    pub nesting: usize,
    /// Whether it was made to its end, and not given up over [`MAX_MADE`] records.
    pub whole: bool,
}

impl Work {
    /// Whether the original ends in time. It then made the tree too, and the same one.
    pub fn in_time(&self) -> bool {
        self.nesting <= MAX_NESTING && self.whole
    }
}

/// The main call on a forest, lent so many output bytes and work words, by the original.
pub fn answer(forest: &[u8], out_len: usize, work_words: usize) -> Result<Answer, NoAnswer> {
    let told = answer_deep(forest, out_len, work_words)?;
    by_original(told.work)?;
    Ok(told.answer)
}

/// Skipped where the copy alone made the tree.
pub(crate) fn by_original(work: Option<Work>) -> Result<(), NoAnswer> {
    match work {
        Some(work) if work.nesting > MAX_NESTING => {
            Err(NoAnswer::Skipped(Skipped::Nesting(work.nesting)))
        }
        Some(work) if !work.whole => Err(NoAnswer::Skipped(Skipped::TooLarge)),
        _ => Ok(()),
    }
}

/// The same, however deep scopes are nested and however large the tree would be: by the copy that remembers free lists
/// and, where it ends in time, by the original too.
pub fn answer_deep(forest: &[u8], out_len: usize, work_words: usize) -> Result<Told, NoAnswer> {
    let without_tree = |refusal| Told {
        answer: refused(refusal),
        work: None,
    };
    if work_words < MIN_WORK_WORDS {
        return Ok(without_tree(Refusal {
            number: 1,
            place: 0,
        }));
    }
    let counted = accept(forest).and_then(|forest| Ok((count(&forest)?, forest)));
    let (counts, forest) = match counted {
        Ok(counted) => counted,
        Err(refusal) => return Ok(without_tree(refusal)),
    };
    let (tree, work) = written_tree(&forest, counts)?;
    Ok(Told {
        answer: measured(tree, counts, out_len),
        work: Some(work),
    })
}

/// Whether marks matter to a forest with that answer, where plenty is lent: without them it has other
/// symbols or another tree, the marks in the tree left aside. False where it has no answer then.
pub fn tells_marks(forest: &[u8], given: &Answer) -> bool {
    let Some(unmarked) = without_marks(forest) else {
        return false;
    };
    match answer_deep(&unmarked, MAX_OUTPUT, MIN_WORK_WORDS) {
        Ok(Told { answer, .. }) => {
            // A refusal has no tree.
            let tree = without_marks(&given.tree).unwrap_or_default();
            (answer.symbols, answer.tree) != (given.symbols, tree)
        }
        Err(_) => false,
    }
}

/// The bytes of an accepted forest with its marks taken off.
pub fn without_marks(forest: &[u8]) -> Option<Vec<u8>> {
    let forest = accept(forest).ok()?;
    Some(forest.without_marks().to_bytes())
}

/// The answer to a forest with that written tree, or with one that was given up as too large.
fn measured(tree: Option<Tree>, counts: Counts, out_len: usize) -> Answer {
    let Some(tree) = tree else {
        return refused(Refusal {
            number: 13,
            place: 0,
        });
    };
    let (records, depth) = (tree.size(), tree.depth());
    let bytes = Forest { trees: vec![tree] }.to_bytes();
    let number = if records > MAX_RECORDS || bytes.len() > MAX_OUTPUT.min(out_len) {
        13
    } else if depth > MAX_DEPTH {
        14
    } else {
        return Answer {
            number: 0,
            place: 0,
            written_length: bytes.len() as u32,
            symbols: counts.symbols,
            readings: counts.readings,
            tree: bytes,
        };
    };
    refused(Refusal { number, place: 0 })
}

fn refused(refusal: Refusal) -> Answer {
    Answer {
        number: refusal.number,
        place: refusal.place,
        written_length: 0,
        symbols: 0,
        readings: 0,
        tree: Vec::new(),
    }
}

/// What both copies of the pass make of an accepted forest within the limits, the original where it ends in time; none if
/// it was given up as too large.
fn written_tree(forest: &Forest, counts: Counts) -> Result<(Option<Tree>, Work), NoAnswer> {
    on_large_stack(|| {
        let (interner, _) = interned(forest);
        let original = interner.syms.len() as u32;
        if original != counts.symbols {
            return Err(NoAnswer::SymbolCount {
                paper: counts.symbols,
                original,
            });
        }
        let (root, env) = exprs(forest);
        let tree = remembered(root.clone(), &env).map(|tree| to_tree(&tree));
        let work = Work {
            nesting: forest.trees.iter().map(nesting).max().unwrap_or(0),
            whole: tree.is_some(),
        };
        if work.in_time() && Some(to_tree(&cse(root, &env))) != tree {
            return Err(NoAnswer::Copies);
        }
        Ok((tree, work))
    })
}

/// What the copy that remembers free lists makes; none if it gives the tree up as too large.
pub fn remembered(root: Expr, env: &[Expr]) -> Option<Expr> {
    let made = catch_unwind(AssertUnwindSafe(|| remembering::cse(root, env)));
    made.map_err(|fault| {
        if !fault.is::<remembering::TooLarge>() {
            resume_unwind(fault)
        }
    })
    .ok()
}

/// How long the free lists of all symbols of an accepted forest are together.
pub fn entries(forest: &Forest) -> usize {
    on_large_stack(|| {
        let mut interner = remembering::Interner::new();
        for tree in &forest.trees {
            interner.intern(&to_expr(tree));
        }
        interner.entries()
    })
}

/// The root and the environment trees as the pass takes them.
pub fn exprs(forest: &Forest) -> (Expr, Vec<Expr>) {
    let mut exprs: Vec<_> = forest.trees.iter().map(to_expr).collect();
    let root = exprs.pop().expect("a forest has a root");
    (root, exprs)
}

/// The original itself, from its own tree to its own tree.
pub fn original(root: Expr, env: &[Expr]) -> Expr {
    cse(root, env)
}

/// The first half of `cse`: the environment trees, then the root.
pub(crate) fn interned(forest: &Forest) -> (Interner, SymId) {
    let mut interner = Interner::new();
    let symbols: Vec<SymId> = forest
        .trees
        .iter()
        .map(|tree| interner.intern(&to_expr(tree)))
        .collect();
    let root = *symbols.last().expect("a forest has a root");
    (interner, root)
}

pub(crate) fn on_large_stack<T: Send>(work: impl FnOnce() -> T + Send) -> T {
    thread::scope(|scope| {
        thread::Builder::new()
            .stack_size(STACK)
            .spawn_scoped(scope, work)
            .expect("a thread can be started")
            .join()
            .unwrap_or_else(|panic| std::panic::resume_unwind(panic))
    })
}

#[cfg(test)]
mod tests {
    use super::*;
    use crate::trees::{alone, block, node, p, tuple, val_use, z};

    /// docs/DIFFERENCES.md: the original takes Two and ByIndex under one opcode for one symbol. Check 16 refuses the forest at
    /// ByIndex, record 4: tuple, Two and its two operands are 0 to 3.
    #[test]
    fn the_original_merges_two_shapes_of_one_opcode() {
        let by_index = |a, b| node(24, 0x9A, 0, &[], vec![a, b]);
        let forest = alone(tuple(vec![p(z(), z()), by_index(z(), z())]));
        let mixed = Refusal {
            number: 16,
            place: 4,
        };
        assert_eq!(accept(&forest.to_bytes()), Err(mixed));
        assert_eq!(count(&forest).expect("within the limits").symbols, 4);
        assert_eq!(interned(&forest).0.syms.len(), 3);
        let written = to_tree(&cse(to_expr(&forest.trees[0]), &[]));
        let shared = p(val_use(1), val_use(1));
        let result = tuple(vec![val_use(2), val_use(2)]);
        assert_eq!(written, block(vec![(1, z()), (2, shared)], result));
    }
}
