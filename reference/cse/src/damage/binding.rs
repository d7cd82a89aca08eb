//! Refusals 9 and 10: ids bound while in force, and uses of ids that are not.

use super::nodes::{bound_ids, leaf, nodes, pick_where, replace, tree_at, unbound_id, Node};
use super::structure::hide_unbound_use;
use super::{base, Fault, File, MAX_DEPTH, MAX_RECORDS};
use crate::forest::{Forest, Tree};
use crate::generate::records::*;
use crate::generate::Rng;

fn define(id: u32, value: Tree) -> Tree {
    definition(id, &None, value)
}

/// The most that a wrapper below adds: to the depth at which the wrapped tree stands, and in all.
const WRAPPER_LEVELS: usize = 5;
const WRAPPER_RECORDS: usize = 8;

/// A record that may be put under others: no definition, and there is room.
fn can_be_wrapped(node: &Node, records: usize) -> bool {
    node.shape != VAL_DEF
        && node.depth + node.height - 1 + WRAPPER_LEVELS <= MAX_DEPTH
        && records + WRAPPER_RECORDS <= MAX_RECORDS
}

/// Refusal 9.
pub(super) fn bound_again(rng: &mut Rng) -> Option<Fault> {
    let mut forest = base(rng);
    let all = nodes(&forest);
    let choice = rng.below(12);
    let at = pick_where(rng, &all, |node| {
        // The first two need an id in force there.
        can_be_wrapped(node, all.len()) && (choice > 1 || !node.in_force.is_empty())
    })?;
    let node = &all[at];
    // Bound nowhere, so each binding of it but the second is right.
    let fresh = unbound_id(&forest, rng.pick(&[1, 1, 7, 0, u32::MAX]));
    let free = unbound_id(&forest, fresh.wrapping_add(1));
    let (a, b) = (leaf(rng), leaf(rng));
    // Each wrapper's records before the tree itself are counted by hand: the place is among them.
    let mut wrap = |make: &dyn Fn(Tree) -> Tree| replace(&mut forest, at, make);
    let (place, way) = match choice {
        0 => {
            let id = rng.pick(&node.in_force);
            wrap(&|tree| block(vec![define(id, a.clone())], tree));
            (at + 1, "definition of an id in force")
        }
        1 => {
            let id = rng.pick(&node.in_force);
            let ids = rng.pick(&[vec![id], vec![fresh, id], vec![id, fresh], vec![id, id]]);
            wrap(&|tree| untyped_lambda(&ids, tree));
            (at, "argument with an id in force")
        }
        2 => {
            let ids = rng.pick(&[
                vec![fresh, fresh],
                vec![fresh, free, fresh],
                vec![free, fresh, fresh],
            ]);
            wrap(&|tree| untyped_lambda(&ids, tree));
            (at, "id twice in one lambda")
        }
        3 => {
            wrap(&|tree| {
                block(
                    vec![define(fresh, a.clone()), define(fresh, b.clone())],
                    tree,
                )
            });
            (at + 3, "id twice in one block")
        }
        4 => {
            wrap(&|tree| untyped_lambda(&[fresh], untyped_lambda(&[fresh], tree)));
            (at + 1, "argument of a lambda in the lambda")
        }
        5 => {
            wrap(&|tree| {
                let inner = block(vec![define(fresh, a.clone())], tree);
                untyped_lambda(&[free, fresh], inner)
            });
            (at + 2, "definition of an argument")
        }
        6 => {
            wrap(&|tree| {
                block(
                    vec![define(fresh, a.clone())],
                    untyped_lambda(&[fresh], tree),
                )
            });
            (at + 3, "argument with a definition's id")
        }
        7 => {
            wrap(&|tree| {
                let inner = untyped_lambda(&[fresh], b.clone());
                let definitions = vec![define(fresh, a.clone()), define(free, inner)];
                block(definitions, tree)
            });
            (at + 4, "argument in a later value")
        }
        8 => {
            wrap(&|tree| {
                let inner = block(vec![define(fresh, b.clone())], value_use(fresh));
                block(vec![define(fresh, a.clone()), define(free, inner)], tree)
            });
            (at + 5, "definition in a later value")
        }
        9 => return rebound(rng, forest, &all, VAL_DEF),
        _ => return rebound(rng, forest, &all, FUNC_VALUE),
    };
    hide_unbound_use(rng, &mut forest);
    let bytes = File::of(&forest).bytes();
    Some(Fault { bytes, place, way })
}

/// A definition or a lambda that stands there gets an id that is in force.
fn rebound(rng: &mut Rng, mut forest: Forest, all: &[Node], shape: u8) -> Option<Fault> {
    let place = pick_where(rng, all, |node| {
        node.shape == shape && !node.in_force.is_empty()
    })?;
    let record = &mut tree_at(&mut forest, place).record;
    let way = match shape {
        VAL_DEF => "definition's id changed",
        _ if record.aux > 0 => "first argument's id changed",
        _ => return None,
    };
    let id = rng.pick(&all[place].in_force);
    record.literal[..4].copy_from_slice(&id.to_le_bytes());
    let bytes = File::of(&forest).bytes();
    Some(Fault { bytes, place, way })
}

/// Refusal 10.
pub(super) fn not_in_force(rng: &mut Rng) -> Option<Fault> {
    let mut forest = base(rng);
    let all = nodes(&forest);
    let bound = bound_ids(&forest);
    let choice = rng.below(11);
    let at = pick_where(rng, &all, |node| match choice {
        // A leaf gives way to the use.
        0 => node.size == 1,
        1 => node.size == 1 && bound.iter().any(|id| !node.in_force.contains(id)),
        2 => node.size == 1 && all.len() + WRAPPER_RECORDS <= MAX_RECORDS,
        _ => can_be_wrapped(node, all.len()),
    })?;
    let node = &all[at];
    let id = unbound_id(&forest, rng.pick(&[1, 1, 7, 0, u32::MAX]));
    let other = unbound_id(&forest, id.wrapping_add(1));
    let a = leaf(rng);
    let mut wrap = |make: &dyn Fn(Tree) -> Tree| replace(&mut forest, at, make);
    let (place, way) = match choice {
        0 => {
            wrap(&|_| value_use(id));
            (at, "bound nowhere")
        }
        1 => {
            let mut elsewhere = bound.clone();
            elsewhere.retain(|id| !node.in_force.contains(id));
            let id = rng.pick(&elsewhere);
            wrap(&|_| value_use(id));
            (at, "bound elsewhere")
        }
        2 => {
            // An environment tree's definition ends with its tree.
            wrap(&|_| value_use(id));
            if forest.trees.len() == 16 {
                return None;
            }
            let tree = block(vec![define(id, a)], value_use(id));
            let size = tree.size();
            forest.trees.insert(rng.below(node.tree + 1), tree);
            (at + size, "id of an environment tree")
        }
        3 => {
            wrap(&|tree| {
                let inner = block(vec![define(id, a.clone())], tree);
                plain(TWO, vec![inner, value_use(id)])
            });
            (at + 4 + node.size, "after the block's end")
        }
        4 => {
            wrap(&|tree| block(vec![define(id, plain(ONE, vec![value_use(id)]))], tree));
            (at + 3, "in its own value")
        }
        5 => {
            wrap(&|tree| plain(TWO, vec![untyped_lambda(&[id], tree), value_use(id)]));
            (at + 2 + node.size, "argument outside its lambda")
        }
        6 => {
            wrap(&|tree| {
                block(
                    vec![define(other, value_use(id)), define(id, a.clone())],
                    tree,
                )
            });
            (at + 2, "before its definition")
        }
        7 => {
            wrap(&|tree| {
                let condition = block(vec![define(id, a.clone())], value_use(id));
                plain(THREE, vec![condition, value_use(id), tree])
            });
            (at + 5, "condition's definition in a branch")
        }
        8 => {
            let literal = id.to_le_bytes().to_vec();
            let placeholder = tree(CONST_PLACEHOLDER, 0x73, literal, Vec::new());
            wrap(&|tree| plain(TUPLE, vec![placeholder.clone(), value_use(id), tree]));
            (at + 2, "id of a placeholder")
        }
        9 => {
            // Bound again inside the value, and over with it.
            wrap(&|tree| {
                let inner = block(vec![define(id, a.clone())], value_use(id));
                let value = plain(TWO, vec![inner, value_use(id)]);
                block(vec![define(id, value)], tree)
            });
            (at + 7, "inner binding over")
        }
        _ => {
            wrap(&|tree| plain(FUNC_APPLY, vec![untyped_lambda(&[id], tree), value_use(id)]));
            (at + 2 + node.size, "argument beside its lambda")
        }
    };
    let bytes = File::of(&forest).bytes();
    Some(Fault { bytes, place, way })
}
