//! Unfolding (document 01, "Unfolding, for demand 3"), which takes nothing from the pass. Unfolded
//! trees can be exponentially large, so they are never built: two are compared from the root down.

use std::collections::{HashMap, HashSet};

use crate::check::accept;
use crate::forest::{Record, Tree};

const VAL_USE: u8 = 7;
const BLOCK_VALUE: u8 = 11;
const FUNC_VALUE: u8 = 12;

/// Pairs of records looked at before a comparison is given up.
const STEPS: u32 = 200_000;

/// Whether `written` is accepted and unfolds as the root of `forest` does. `None` when `forest` is
/// not accepted, or the comparison takes too many steps.
pub fn keeps_meaning(forest: &[u8], written: &[u8]) -> Option<bool> {
    let forest = accept(forest).ok()?;
    let Ok(written) = accept(written) else {
        return Some(false);
    };
    same_unfolding(forest.trees.last()?, written.trees.last()?)
}

/// Whether two accepted roots unfold to the same tree; `None` after too many steps.
pub fn same_unfolding(left: &Tree, right: &Tree) -> Option<bool> {
    let mut comparison = Comparison {
        scopes: Scopes::default(),
        same: HashSet::new(),
        steps: STEPS,
    };
    let left = View {
        tree: left,
        scope: NOTHING,
    };
    let right = View {
        tree: right,
        scope: NOTHING,
    };
    comparison.same(left, right, 0)
}

/// What is in force, as a number: 0 is nothing, and each binding on top of a scope is a scope.
type ScopeId = usize;
const NOTHING: ScopeId = 0;

/// A record with what is in force for it.
#[derive(Clone, Copy)]
struct View<'a> {
    tree: &'a Tree,
    scope: ScopeId,
}

/// Tells views apart: where the record lies, and what is in force.
type ViewKey = (*const Tree, ScopeId);

impl View<'_> {
    fn key(&self) -> ViewKey {
        (std::ptr::from_ref(self.tree), self.scope)
    }
}

#[derive(Clone, Copy)]
enum Binding<'a> {
    /// A definition's value, with what was in force before the definition.
    Value(View<'a>),
    /// An argument: its lambda's number and its position.
    Argument(u32, usize),
}

/// All scopes met so far. Equal scopes get one number, so that a record met again in the same
/// scope is known to have been met.
#[derive(Default)]
struct Scopes<'a> {
    /// Scope n is at n - 1: the scope below it, the id, and what the id is bound to.
    bindings: Vec<(ScopeId, u32, Binding<'a>)>,
    numbers: HashMap<BindingKey, ScopeId>,
}

#[derive(PartialEq, Eq, Hash)]
enum BindingKey {
    Value(ScopeId, u32, ViewKey),
    Argument(ScopeId, u32, u32, usize),
}

impl<'a> Scopes<'a> {
    fn bind(&mut self, scope: ScopeId, id: u32, binding: Binding<'a>) -> ScopeId {
        let key = match binding {
            Binding::Value(value) => BindingKey::Value(scope, id, value.key()),
            Binding::Argument(lambda, position) => {
                BindingKey::Argument(scope, id, lambda, position)
            }
        };
        *self.numbers.entry(key).or_insert_with(|| {
            self.bindings.push((scope, id, binding));
            self.bindings.len()
        })
    }

    fn look_up(&self, mut scope: ScopeId, id: u32) -> Binding<'a> {
        loop {
            assert!(scope != NOTHING, "check 10 has seen the id in force");
            let (below, bound, binding) = self.bindings[scope - 1];
            if bound == id {
                return binding;
            }
            scope = below;
        }
    }
}

/// The first record of an unfolding.
enum Head<'a> {
    /// A use of an argument: how many lambdas outward, from 0, and its position.
    Argument(u32, usize),
    Record(View<'a>),
}

struct Comparison<'a> {
    scopes: Scopes<'a>,
    /// Pairs found the same, each at a number of lambdas around.
    same: HashSet<(ViewKey, ViewKey, u32)>,
    steps: u32,
}

impl<'a> Comparison<'a> {
    /// Compares two unfoldings inside `lambdas` lambdas.
    fn same(&mut self, left: View<'a>, right: View<'a>, lambdas: u32) -> Option<bool> {
        self.steps = self.steps.checked_sub(1)?;
        let pair = (left.key(), right.key(), lambdas);
        if self.same.contains(&pair) {
            return Some(true);
        }
        let same = match (self.head(left, lambdas), self.head(right, lambdas)) {
            (Head::Argument(out, position), Head::Argument(out_, position_)) => {
                out == out_ && position == position_
            }
            (Head::Record(left), Head::Record(right)) => {
                same_record(left.tree, right.tree) && self.same_children(left, right, lambdas)?
            }
            _ => false,
        };
        if same {
            self.same.insert(pair);
        }
        Some(same)
    }

    /// Goes through blocks and uses of definitions, which leave nothing of themselves.
    fn head(&mut self, view: View<'a>, lambdas: u32) -> Head<'a> {
        let mut view = view;
        loop {
            match view.tree.record.shape {
                BLOCK_VALUE => {
                    let (result, definitions) = view
                        .tree
                        .children
                        .split_last()
                        .expect("check 4 has seen the result");
                    let mut scope = view.scope;
                    for definition in definitions {
                        let value = View {
                            tree: &definition.children[0],
                            scope,
                        };
                        let id = id(&definition.record.literal);
                        scope = self.scopes.bind(scope, id, Binding::Value(value));
                    }
                    view = View {
                        tree: result,
                        scope,
                    };
                }
                VAL_USE => match self
                    .scopes
                    .look_up(view.scope, id(&view.tree.record.literal))
                {
                    Binding::Value(value) => view = value,
                    Binding::Argument(lambda, position) => {
                        return Head::Argument(lambdas - lambda, position)
                    }
                },
                _ => return Head::Record(view),
            }
        }
    }

    fn same_children(&mut self, left: View<'a>, right: View<'a>, lambdas: u32) -> Option<bool> {
        let (mut left_scope, mut right_scope, mut inside) = (left.scope, right.scope, lambdas);
        if left.tree.record.shape == FUNC_VALUE {
            inside += 1;
            left_scope = self.bind_arguments(left, inside);
            right_scope = self.bind_arguments(right, inside);
        }
        for (left, right) in left.tree.children.iter().zip(&right.tree.children) {
            let left = View {
                tree: left,
                scope: left_scope,
            };
            let right = View {
                tree: right,
                scope: right_scope,
            };
            if !self.same(left, right, inside)? {
                return Some(false);
            }
        }
        Some(true)
    }

    fn bind_arguments(&mut self, lambda: View<'a>, number: u32) -> ScopeId {
        let arguments = arguments(&lambda.tree.record);
        let mut scope = lambda.scope;
        for (position, (id, _)) in arguments.into_iter().enumerate() {
            let binding = Binding::Argument(number, position);
            scope = self.scopes.bind(scope, id, binding);
        }
        scope
    }
}

/// Whether two records say the same of themselves; a lambda's ids are left out, its opts kept.
fn same_record(left: &Tree, right: &Tree) -> bool {
    let (a, b) = (&left.record, &right.record);
    let same_literal = if a.shape == FUNC_VALUE && b.shape == FUNC_VALUE {
        let opts = |record| arguments(record).into_iter().map(|(_, opt)| opt);
        opts(a).eq(opts(b))
    } else {
        a.literal == b.literal
    };
    (a.shape, a.opcode, a.aux) == (b.shape, b.opcode, b.aux)
        && same_literal
        && left.children.len() == right.children.len()
}

fn id(literal: &[u8]) -> u32 {
    u32::from_le_bytes([literal[0], literal[1], literal[2], literal[3]])
}

/// A lambda's arguments: the id and the bytes of the opt.
fn arguments(record: &Record) -> Vec<(u32, &[u8])> {
    let mut arguments = Vec::new();
    let mut rest = record.literal.as_slice();
    while !rest.is_empty() {
        let length = match rest[4] {
            0 => 1,
            _ => 2 + usize::from(rest[5]),
        };
        let (argument, after) = rest.split_at(4 + length);
        arguments.push((id(argument), &argument[4..]));
        rest = after;
    }
    arguments
}
