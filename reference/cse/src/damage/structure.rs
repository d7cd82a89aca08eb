//! Refusals 6, 7 and 8: trees that do not close, are too deep, or have a definition out of place.

use super::nodes::{child_counts, leaf, nodes, pick_where, replace, tree_at, unbound_id, MANY};
use super::{base, Fault, File, MAX_DEPTH, MAX_RECORDS};
use crate::forest::{Forest, Tree};
use crate::generate::records::*;
use crate::generate::Rng;

/// At times, makes some leaf a use of an id that nothing binds: check 10 would find it.
pub(super) fn hide_unbound_use(rng: &mut Rng, forest: &mut Forest) {
    if !rng.chance(30) {
        return;
    }
    let id = unbound_id(forest, 77);
    if let Some(at) = pick_where(rng, &nodes(forest), |node| node.size == 1) {
        replace(forest, at, |_| value_use(id));
    }
}

/// Refusal 6.
pub(super) fn closing(rng: &mut Rng) -> Option<Fault> {
    let mut forest = base(rng);
    hide_unbound_use(rng, &mut forest);
    let mut file = File::of(&forest);
    let count = file.records.len();
    let (place, way) = match rng.below(6) {
        0 => {
            let extra = rng.pick(&[1, 1, 2, 5]);
            if count + extra > MAX_RECORDS {
                return None;
            }
            let more = File::of(&Forest {
                trees: vec![leaf(rng)],
            });
            for _ in 0..extra {
                file.records.extend(more.records.clone());
            }
            (count, "records after the last tree")
        }
        1 => {
            if file.trees == 1 {
                return None;
            }
            file.trees = rng.range(1, file.trees - 1);
            (records(&forest.trees[..file.trees]), "a tree not counted")
        }
        2 => {
            if file.trees == 16 {
                return None;
            }
            file.trees = rng.range(file.trees + 1, 16);
            (count, "a tree that is not there")
        }
        3 => {
            if count == 1 {
                return None;
            }
            let kept = rng.range(1, count - 1);
            file.records.truncate(kept);
            (kept, "records cut from the end")
        }
        4 => {
            let all = nodes(&forest);
            let at = pick_where(rng, &all, |node| node.children < child_counts(node.shape).1)?;
            let more = match child_counts(all[at].shape).1 {
                MANY => rng.pick(&[1, 2, 0x0100]),
                _ => 1,
            };
            // Each subtree asked for beyond those that are there is lacking in the end.
            file.records[at].count += more;
            (count, "a child that is not there")
        }
        _ => {
            let at = pick_where(rng, &nodes(&forest), |node| {
                node.children > child_counts(node.shape).0
            })?;
            file.records[at].count -= 1;
            // One subtree fewer is asked for, so all is there before the last subtree that starts.
            let mut wanted = file.trees;
            let mut next = 0;
            while wanted > 0 {
                wanted = wanted - 1 + file.records[next].count;
                next += 1;
            }
            (next, "a child not counted")
        }
    };
    let bytes = file.bytes();
    Some(Fault { bytes, place, way })
}

/// Refusal 7: a tree is put under so many records that a part of it is 65 deep.
pub(super) fn depth(rng: &mut Rng) -> Option<Fault> {
    let mut forest = base(rng);
    let number = rng.below(forest.trees.len());
    let depth = match rng.chance(60) {
        true => MAX_DEPTH + 1,
        false => rng.range(MAX_DEPTH + 2, MAX_DEPTH + 30),
    };
    let mut id = unbound_id(&forest, 1000);
    let tree = &mut forest.trees[number];
    while tree.depth() < depth {
        let inner = std::mem::replace(tree, leaf(rng));
        let levels = depth - inner.depth();
        *tree = match rng.below(8) {
            0 if levels > 1 => {
                id += 1;
                block(vec![definition(id, &None, inner)], leaf(rng))
            }
            1 => block(Vec::new(), inner),
            2 => {
                id += 1;
                untyped_lambda(&[id], inner)
            }
            3 => plain(TWO, vec![leaf(rng), inner]),
            4 => plain(THREE, vec![leaf(rng), inner, leaf(rng)]),
            5 => plain(TUPLE, vec![inner, leaf(rng)]),
            _ => plain(ONE, vec![inner]),
        };
    }
    if forest.size() > MAX_RECORDS {
        return None;
    }
    hide_unbound_use(rng, &mut forest);
    let place = nodes(&forest)
        .iter()
        .position(|node| node.depth == MAX_DEPTH + 1)?;
    let way = match depth {
        65 => "65 deep",
        _ => "deeper than 65",
    };
    let bytes = File::of(&forest).bytes();
    Some(Fault { bytes, place, way })
}

/// Refusal 8.
pub(super) fn misplaced_definition(rng: &mut Rng) -> Option<Fault> {
    let mut forest = base(rng);
    let all = nodes(&forest);
    let (place, way) = match rng.below(8) {
        0 => {
            let at = pick_where(rng, &all, |node| node.shape == BLOCK_VALUE)?;
            if all.len() == MAX_RECORDS {
                return None;
            }
            let children = &mut tree_at(&mut forest, at).children;
            let before = rng.below(children.len());
            let place = at + 1 + records(&children[..before]);
            children.insert(before, leaf(rng));
            (place, "no definition before the result")
        }
        1 => {
            let at = pick_where(rng, &all, |node| {
                node.shape == BLOCK_VALUE && node.children > 1
            })?;
            let children = &mut tree_at(&mut forest, at).children;
            children.pop();
            let last = children.len() - 1;
            (
                at + 1 + records(&children[..last]),
                "a block without result",
            )
        }
        2 => {
            let at = pick_where(rng, &all, |node| node.shape == VAL_DEF)?;
            replace(&mut forest, at, |mut tree| tree.children.remove(0));
            (at, "a value without its definition")
        }
        choice => {
            let way = match choice {
                3 => "a definition as root",
                4 => "a definition as result",
                5 => "a definition as body",
                6 => "a definition as value",
                _ => "a definition as operand",
            };
            let at = pick_where(rng, &all, |node| {
                let stands = match node.parent {
                    None => 3,
                    Some(BLOCK_VALUE) => 4,
                    Some(FUNC_VALUE) => 5,
                    Some(VAL_DEF) => 6,
                    Some(_) => 7,
                };
                stands == choice && node.shape != VAL_DEF && node.depth + node.height <= MAX_DEPTH
            })?;
            if all.len() == MAX_RECORDS {
                return None;
            }
            let opt = rng.chance(30).then(|| vec![1, 4]);
            let id = unbound_id(&forest, rng.range(0, 9) as u32);
            replace(&mut forest, at, |tree| definition(id, &opt, tree));
            (at, way)
        }
    };
    hide_unbound_use(rng, &mut forest);
    let bytes = File::of(&forest).bytes();
    Some(Fault { bytes, place, way })
}

fn records(trees: &[Tree]) -> usize {
    trees.iter().map(Tree::size).sum()
}
