//! The rule beside each symbol (request A.4), from the original's symbols, its gate and the bytes that it writes. Which symbol a
//! written definition is of, and for which scope its block is written, is worked out from the written tree beside the symbols: one
//! walk from the root knows the symbol that each record stands for, and so a use says of which symbol its id is. Nothing is taken
//! from how the original made the tree. The rules, the lines, the walk.

use std::collections::BTreeMap;

use crate::cse::{Interner, KeyTag, Node, ScopeId, SymId};
use crate::forest::Tree;
use crate::generate::records::{
    argument_ids, first_id, opens_scope, BLOCK_VALUE, FUNC_VALUE, VAL_USE,
};

/// What is said of a symbol: the first that holds.
#[derive(Clone, Copy, PartialEq, Eq, Debug)]
pub enum Rule {
    Argument,
    UsedAtMostOnce,
    ContextProperty,
    Global,
    ScalarConstant,
    /// The scope for which the first block that holds its definition is written.
    Hoisted(ScopeId),
    NoDefinition,
}

impl Rule {
    /// The rules' words in their order, without hoisted's scope.
    pub const WORDS: [&'static str; 7] = [
        "argument",
        "used at most once",
        "context property",
        "GLOBAL",
        "scalar constant",
        "hoisted in scope",
        "no definition written",
    ];

    /// Where it stands in that order.
    pub fn number(self) -> usize {
        match self {
            Rule::Argument => 0,
            Rule::UsedAtMostOnce => 1,
            Rule::ContextProperty => 2,
            Rule::Global => 3,
            Rule::ScalarConstant => 4,
            Rule::Hoisted(_) => 5,
            Rule::NoDefinition => 6,
        }
    }

    /// The line of a symbol.
    fn line(self, symbol: SymId) -> String {
        let (index, words) = (symbol.0, Rule::WORDS[self.number()]);
        match self {
            Rule::Hoisted(scope) => format!("{index} {words} {scope}\n"),
            _ => format!("{index} {words}\n"),
        }
    }
}

/// What was found of a forest's symbols.
#[derive(Clone, PartialEq, Eq, Debug, Default)]
pub struct Rules {
    /// "for each symbol reached from the root and in symbol order, its number and the first that holds".
    pub lines: String,
    /// How many lines have each rule.
    pub counts: [usize; 7],
    /// How many symbols are hoisted in another scope than that in which they were first built.
    pub elsewhere: usize,
    /// How many have definitions in more than one block.
    pub several: usize,
}

/// The rules of a forest's symbols, where it is written as that tree.
pub(crate) fn rules(interner: &Interner, root: SymId, written: &Tree) -> Rules {
    let usage = interner.flat_usage_reachable(root);
    let mut blocks = blocks(interner, root, written);
    let mut rules = Rules::default();
    for symbol in interner.reachable_from(root) {
        let holding = blocks.remove(&symbol).unwrap_or_default();
        let gated = gate(interner, &usage, symbol);
        assert!(
            gated.is_none() || holding.is_empty(),
            "a definition is written of symbol {}: {gated:?}",
            symbol.0
        );
        let first = holding.iter().min_by_key(|block| block.record);
        let rule = gated.unwrap_or(match first {
            Some(block) => Rule::Hoisted(block.scope),
            None => Rule::NoDefinition,
        });
        let own = interner.syms[symbol.0 as usize].scope;
        rules.elsewhere += usize::from(first.is_some_and(|block| block.scope != own));
        rules.several += usize::from(holding.len() > 1);
        rules.counts[rule.number()] += 1;
        rules.lines += &rule.line(symbol);
    }
    assert!(
        blocks.is_empty(),
        "definitions are written of symbols that the root does not reach: {blocks:?}"
    );
    rules
}

/// Which of the first five holds first.
fn gate(interner: &Interner, usage: &BTreeMap<SymId, usize>, symbol: SymId) -> Option<Rule> {
    if *interner.tag_of(symbol) == KeyTag::Arg {
        Some(Rule::Argument)
    } else if !Interner::has_many(usage, symbol) {
        Some(Rule::UsedAtMostOnce)
    } else if interner.is_context_property(symbol) {
        Some(Rule::ContextProperty)
    } else if interner.is_internal(symbol) {
        Some(Rule::Global)
    } else if interner.is_const(symbol) {
        Some(Rule::ScalarConstant)
    } else {
        None
    }
}

/// A written block, by its record's number and the scope that it is written for.
#[derive(Clone, Copy, Debug)]
struct Block {
    record: usize,
    scope: ScopeId,
}

/// The blocks that hold a symbol's definition, for each symbol that has one.
fn blocks(interner: &Interner, root: SymId, written: &Tree) -> BTreeMap<SymId, Vec<Block>> {
    let mut walk = Walk {
        interner,
        in_force: Vec::new(),
        blocks: BTreeMap::new(),
    };
    let outermost = 0;
    walk.enter(written, 0, root, outermost);
    walk.blocks
}

struct Walk<'a> {
    interner: &'a Interner,
    /// Ids with the symbols that they stand for, the innermost last; none for a definition as long as no use of it was met.
    in_force: Vec<(u32, Option<SymId>)>,
    blocks: BTreeMap<SymId, Vec<Block>>,
}

impl Walk<'_> {
    /// What is written for a scope, from record `at` on: the value of a symbol, in a block where the scope has definitions. The
    /// result comes first and then the last definition, so that each comes behind all its uses.
    fn enter(&mut self, tree: &Tree, at: usize, symbol: SymId, scope: ScopeId) {
        if tree.record.shape != BLOCK_VALUE {
            return self.value(tree, at, symbol, scope);
        }
        let mut children = numbered(tree, at);
        let (result, first) = children.pop().expect("a block has a result");
        let ids = children.iter().map(|(child, _)| first_id(&child.record));
        self.in_force.extend(ids.map(|id| (id, None)));
        self.value(result, first, symbol, scope);
        for (definition, first) in children.into_iter().rev() {
            let own = self.in_force.pop().and_then(|(_, symbol)| symbol);
            let own = own.expect("a written definition is used in its block");
            let block = Block { record: at, scope };
            self.blocks.entry(own).or_default().push(block);
            self.value(&definition.children[0], first + 1, own, scope);
        }
    }

    /// What stands for a symbol in a scope: a use, or the symbol's own record with what stands for its children.
    fn value(&mut self, tree: &Tree, at: usize, symbol: SymId, scope: ScopeId) {
        match tree.record.shape {
            BLOCK_VALUE => panic!("a block is written where no scope begins"),
            VAL_USE => self.meet(first_id(&tree.record), symbol),
            FUNC_VALUE => self.lambda(tree, at, symbol),
            _ => self.operation(tree, at, symbol, scope),
        }
    }

    /// A use where a symbol is expected.
    fn meet(&mut self, id: u32, symbol: SymId) {
        let bound = self.in_force.iter_mut().rev().find(|(own, _)| *own == id);
        let (_, meant) = bound.expect("a use is of an id in force");
        let meant = *meant.get_or_insert(symbol);
        assert_eq!(meant, symbol, "id {id} stands for two symbols");
    }

    fn lambda(&mut self, tree: &Tree, at: usize, symbol: SymId) {
        let Node::Func {
            args,
            body,
            body_scope,
        } = &self.interner.syms[symbol.0 as usize].node
        else {
            panic!("a lambda is written for symbol {}", symbol.0);
        };
        let outside = self.in_force.len();
        let ids = argument_ids(&tree.record);
        assert_eq!(ids.len(), args.len(), "a lambda has other arguments");
        let arguments = args.iter().map(|(argument, _)| Some(*argument));
        self.in_force.extend(ids.into_iter().zip(arguments));
        self.enter(&tree.children[0], at + 1, *body, *body_scope);
        self.in_force.truncate(outside);
    }

    /// Children stand for the symbol's children, a thunk for its own in the scope that the symbol keeps for it.
    fn operation(&mut self, tree: &Tree, at: usize, symbol: SymId, scope: ScopeId) {
        let info = &self.interner.syms[symbol.0 as usize];
        let written = tree.record.opcode;
        let fits = match info.key.tag {
            KeyTag::Op(opcode) => opcode == written,
            KeyTag::Const | KeyTag::Unparsed => written == 0,
            KeyTag::Arg => false,
        };
        let children = numbered(tree, at);
        assert!(
            fits && children.len() == info.key.children.len(),
            "another record is written for symbol {}",
            symbol.0
        );
        let mut thunks = info.branch_scopes.iter();
        for (i, (child, first)) in children.into_iter().enumerate() {
            let own = info.key.children[i];
            if opens_scope(&tree.record, i) {
                let thunk = thunks.next().expect("a thunk has a scope");
                self.enter(child, first, own, *thunk);
            } else {
                self.value(child, first, own, scope);
            }
        }
    }
}

/// The children of record `at`, each with its record's number.
fn numbered(tree: &Tree, at: usize) -> Vec<(&Tree, usize)> {
    let mut next = at + 1;
    let number = |child| {
        let first = next;
        next += Tree::size(child);
        (child, first)
    };
    tree.children.iter().map(number).collect()
}
