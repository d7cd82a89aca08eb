//! The lister of document 01, with requests A.2, A.1 and A.4: the original's symbols, a line each, then a line for each
//! definition of the tree that it writes, and then one for the rule of each symbol that the root reaches.

use std::cmp::Ordering;
use std::collections::BTreeMap;
use std::fmt::Write;

use crate::check::accept;
use crate::cse::{Interner, KeyTag, SymId};
use crate::forest::{Forest, Tree};
use crate::generate::records::{BLOCK_VALUE, VAL_DEF, VAL_USE};
use crate::oracle::{
    answer_deep, by_original, interned, on_large_stack, without_marks, NoAnswer, Work, MAX_OUTPUT,
    MIN_WORK_WORDS,
};
use crate::rules::{rules, Rules};
use crate::savings::{savings, Savings};

/// The lister's text: the lines of symbols, of definitions and of rules, or what the main call refuses with. By the original, as
/// far as it ends in time.
pub fn lister(forest: &[u8]) -> Result<Vec<u8>, NoAnswer> {
    let listing = listing(forest)?;
    by_original(listing.work)?;
    Ok(listing.text.into_bytes())
}

/// The lister's text, and what in the forest its counts hang on.
#[derive(Default)]
pub struct Listing {
    pub text: String,
    /// Whether an environment tree has a symbol that the root does not reach.
    pub unreached: bool,
    /// Whether a definition has no use.
    pub unused: bool,
    /// Whether the symbols' lines would be others if the uses by all symbols counted.
    pub telling: bool,
    /// What the definitions of the written tree save.
    pub savings: Savings,
    /// What is said of the symbols that the root reaches.
    pub rules: Rules,
    /// What making the tree took, where one was made.
    pub work: Option<Work>,
}

/// The lister's text with these, however deep scopes are nested.
pub fn listing(forest: &[u8]) -> Result<Listing, NoAnswer> {
    let told = answer_deep(forest, MAX_OUTPUT, MIN_WORK_WORDS)?;
    if told.answer.number != 0 {
        return Ok(Listing {
            text: format!("refused {} at {}\n", told.answer.number, told.answer.place),
            work: told.work,
            ..Listing::default()
        });
    }
    let forest = accept(forest).expect("a forest with an answer is accepted");
    let written = accept(&told.answer.tree).expect("a written tree is accepted");
    Ok(on_large_stack(|| {
        let (interner, root) = interned(&forest);
        let symbols = symbol_lines(&interner, &interner.flat_usage_reachable(root));
        let savings = savings(&written.trees[0]);
        let rules = rules(&interner, root, &written.trees[0]);
        Listing {
            unreached: unreached(&forest, &interner, root),
            unused: forest.trees.iter().any(defines_unused),
            telling: symbols != symbol_lines(&interner, &interner.flat_usage()),
            work: told.work,
            text: symbols + &savings.lines() + &rules.lines,
            savings,
            rules,
        }
    }))
}

impl Listing {
    /// Whether the written tree has a definition.
    pub fn defines(&self) -> bool {
        !self.savings.definitions.is_empty()
    }

    /// Whether it has one with a saving below zero, of zero or above it, as `side` says.
    pub fn saves(&self, side: Ordering) -> bool {
        self.savings.each().any(|saving| saving.cmp(&0) == side)
    }

    /// Whether it has one that saves bytes and one that does not, and another text would follow if uses were counted by
    /// their ids alone.
    pub fn tells_savings(&self) -> bool {
        let both = self.saves(Ordering::Greater) && self.savings.each().any(|saving| saving <= 0);
        both && self.savings.lines() != self.savings.lines_by_id()
    }
}

/// Whether marks matter to a forest with that listing: without them its text would be another. False where it would have
/// none.
pub fn tells_marks(forest: &[u8], given: &Listing) -> bool {
    let unmarked = without_marks(forest).and_then(|forest| listing(&forest).ok());
    unmarked.is_some_and(|unmarked| unmarked.text != given.text)
}

fn symbol_lines(interner: &Interner, usage: &BTreeMap<SymId, usize>) -> String {
    let mut text = format!("symbols {}\n", interner.syms.len());
    for (index, info) in interner.syms.iter().enumerate() {
        let symbol = SymId(index as u32);
        let (tag, opcode) = match info.key.tag {
            KeyTag::Const => ('C', 0),
            KeyTag::Unparsed => ('U', 0),
            KeyTag::Arg => ('A', 0),
            KeyTag::Op(opcode) => ('O', opcode),
        };
        let uses = usage.get(&symbol).copied().unwrap_or(0);
        let hoist = if interner.should_hoist(symbol, usage) {
            'y'
        } else {
            'n'
        };
        let scope = info.scope;
        writeln!(text, "{index} {tag} {opcode:02X} {scope} {uses} {hoist}")
            .expect("a string takes all text");
    }
    text
}

/// Whether the environment trees, which are read first, make a symbol that the root does not reach.
fn unreached(forest: &Forest, interner: &Interner, root: SymId) -> bool {
    let environment = Forest {
        trees: forest.trees[..forest.trees.len() - 1].to_vec(),
    };
    let made = match environment.trees.is_empty() {
        true => 0,
        false => interned(&environment).0.syms.len() as u32,
    };
    let reached = interner.reachable_from(root);
    (0..made).any(|index| !reached.contains(&SymId(index)))
}

/// Whether a block in the tree has a definition that none of its later children uses. None of them binds its id anew, by
/// check 9.
fn defines_unused(tree: &Tree) -> bool {
    let unused = |(index, child): (usize, &Tree)| {
        let id = &child.record.literal;
        let later = &tree.children[index + 1..];
        child.record.shape == VAL_DEF && !later.iter().any(|tree| uses(tree, &id[..4]))
    };
    let own = tree.record.shape == BLOCK_VALUE && tree.children.iter().enumerate().any(unused);
    own || tree.children.iter().any(defines_unused)
}

fn uses(tree: &Tree, id: &[u8]) -> bool {
    let own = tree.record.shape == VAL_USE && tree.record.literal == id;
    own || tree.children.iter().any(|child| uses(child, id))
}
