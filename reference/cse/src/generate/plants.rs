//! Subtrees made earlier, to be planted again where they may stand.

use super::records::*;
use super::Rng;
use crate::forest::Tree;

const MAX_PLANTS: usize = 24;
const MAX_SIZE: usize = 40;

struct Plant {
    tree: Tree,
    free: Vec<u32>,
    bound: Vec<u32>,
}

#[derive(Default)]
pub(super) struct Plants {
    plants: Vec<Plant>,
}

impl Plants {
    /// Keeps most trees that are not too large, the newer in place of some older.
    pub(super) fn keep(&mut self, rng: &mut Rng, tree: &Tree) {
        if tree.size() > MAX_SIZE || !rng.chance(60) {
            return;
        }
        let (free, bound) = names(tree);
        let tree = tree.clone();
        let plant = Plant { tree, free, bound };
        match self.plants.len() < MAX_PLANTS {
            true => self.plants.push(plant),
            false => self.plants[rng.below(MAX_PLANTS)] = plant,
        }
    }

    /// A copy of a tree that fits and may stand here: what it uses is in force, what it binds is
    /// not.
    pub(super) fn pick(
        &self,
        rng: &mut Rng,
        in_force: &[u32],
        fits: impl Fn(&Tree) -> bool,
    ) -> Option<Tree> {
        let plants: Vec<&Plant> = self
            .plants
            .iter()
            .filter(|plant| fits(&plant.tree))
            .filter(|plant| plant.free.iter().all(|id| in_force.contains(id)))
            .filter(|plant| !plant.bound.iter().any(|id| in_force.contains(id)))
            .collect();
        (!plants.is_empty()).then(|| rng.pick(&plants).tree.clone())
    }
}

/// The ids that a tree uses from outside, and those that it binds.
pub(super) fn names(tree: &Tree) -> (Vec<u32>, Vec<u32>) {
    fn walk(tree: &Tree, inside: &mut Vec<u32>, free: &mut Vec<u32>, bound: &mut Vec<u32>) {
        let outer = inside.len();
        match tree.record.shape {
            VAL_USE => {
                let id = first_id(&tree.record);
                if !inside.contains(&id) && !free.contains(&id) {
                    free.push(id);
                }
            }
            FUNC_VALUE => {
                let ids = argument_ids(&tree.record);
                bound.extend(&ids);
                inside.extend(&ids);
            }
            _ => {}
        }
        for child in &tree.children {
            walk(child, inside, free, bound);
            if child.record.shape == VAL_DEF {
                let id = first_id(&child.record);
                bound.push(id);
                inside.push(id);
            }
        }
        inside.truncate(outer);
    }
    let (mut free, mut bound) = (Vec::new(), Vec::new());
    walk(tree, &mut Vec::new(), &mut free, &mut bound);
    (free, bound)
}
