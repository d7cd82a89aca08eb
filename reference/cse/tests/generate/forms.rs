//! Every form occurs in generated forests.

use crate::*;

/// What occurs in forests, by name and number.
#[derive(Default)]
struct Features {
    seen: BTreeSet<(&'static str, usize)>,
}

impl Features {
    fn see(&mut self, name: &'static str, number: usize) {
        self.seen.insert((name, number));
    }

    fn see_type(&mut self, bytes: &[u8]) {
        self.see("type of length", bytes[0].into());
    }

    fn forest(&mut self, forest: &Forest) {
        self.see("trees", forest.trees.len());
        let mut everywhere = Vec::new();
        for tree in &forest.trees {
            let before = everywhere.len();
            self.tree(tree, &mut everywhere);
            for (i, later) in everywhere.iter().enumerate().skip(before) {
                if later.children.is_empty() {
                    continue;
                }
                if everywhere[..before].contains(later) {
                    self.see("subtree of an earlier tree", 0);
                }
                if everywhere[before..i].contains(later) {
                    self.see("equal subtrees of shape", later.record.shape.into());
                    if later.record.opcode == 0x95 {
                        self.see("equal ifs", 0);
                    }
                }
            }
            for constant in everywhere.iter().filter(|tree| tree.record.shape == 0) {
                let other = everywhere.iter().any(|other| {
                    other.record.shape == 0
                        && other.record.literal == constant.record.literal
                        && other.record.aux != constant.record.aux
                });
                if other {
                    self.see("equal constants of two classes", 0);
                }
            }
        }
    }

    fn tree<'a>(&mut self, tree: &'a Tree, everywhere: &mut Vec<&'a Tree>) {
        everywhere.push(tree);
        let record = &tree.record;
        let literal = &record.literal;
        let children = tree.children.len();
        self.see("shape", record.shape.into());
        self.see("opcode", record.opcode.into());
        match record.shape {
            0 => self.see("class", (record.aux % 7).into()),
            1 => self.see("unparsed, empty or not", literal.len().min(1)),
            9 | 10 => {
                self.see(
                    "typed tagged variable or definition",
                    (literal[4] + 2 * record.shape).into(),
                );
                if literal[4] == 1 {
                    self.see_type(&literal[5..]);
                }
            }
            11 => self.block(tree),
            12 => {
                self.see("arguments", record.aux.into());
                if literal.len() > 5 * usize::from(record.aux) {
                    self.see("typed argument", 0);
                }
            }
            13 => self.see("types of a method", literal[2].into()),
            14 | 16 | 22 => {
                self.see(
                    "children of 14",
                    if record.shape == 14 { children } else { 0 },
                );
                self.see(
                    "children of 16",
                    if record.shape == 16 { children } else { 0 },
                );
                self.see(
                    "children of 22",
                    if record.shape == 22 { children } else { 0 },
                );
            }
            15 => self.see("bits, empty or not", literal.len().min(1)),
            17 => {
                let of_tuple = tree.children[0].record.shape == 16;
                let name = if of_tuple {
                    "field of a tuple"
                } else {
                    "field of another"
                };
                self.see(name, literal[0].into());
            }
            21 => self.see("children of 21", children),
            23 => self.see_type(literal),
            24 => self.see("children of 24", children),
            _ => {}
        }
        if record.opcode == 0x95 {
            let (then, other) = (
                projections(&tree.children[1]),
                projections(&tree.children[2]),
            );
            if then.iter().any(|projection| other.contains(projection)) {
                self.see("projection in both branches", 0);
            }
        }
        for (i, child) in tree.children.iter().enumerate() {
            let lambda = child.record.shape == 12 && child.record.aux > 0;
            let shares = |other: &Tree| {
                other.record.shape == 12
                    && ids(&other.record)
                        .iter()
                        .any(|id| ids(&child.record).contains(id))
            };
            if lambda && tree.children[..i].iter().any(shares) {
                self.see("id shared by sibling lambdas", 0);
            }
            self.tree(child, everywhere);
        }
    }

    fn block(&mut self, tree: &Tree) {
        self.see("definitions", tree.children.len() - 1);
        for child in &tree.children {
            if child.record.shape == 10
                && bound(&child.children[0]).contains(&ids(&child.record)[0])
            {
                self.see("id bound in its own value", 0);
            }
        }
    }

    fn assert_seen(&self, name: &'static str, numbers: impl IntoIterator<Item = usize>) {
        for number in numbers {
            assert!(self.seen.contains(&(name, number)), "{name} {number}");
        }
    }
}

fn projections(tree: &Tree) -> Vec<&Tree> {
    let own = (tree.record.shape == 17 && matches!(tree.record.literal[0], 1 | 2)).then_some(tree);
    own.into_iter()
        .chain(tree.children.iter().flat_map(projections))
        .collect()
}

fn bound(tree: &Tree) -> Vec<u32> {
    let own = match tree.record.shape {
        10 | 12 => ids(&tree.record),
        _ => Vec::new(),
    };
    let inner = tree.children.iter().flat_map(bound);
    own.into_iter().chain(inner).collect()
}

#[test]
fn every_form_occurs() {
    let mut features = Features::default();
    for (_, _, forest) in forests(unmarked()) {
        features.forest(&forest);
    }
    features.assert_seen("shape", 0..27);
    let opcodes = (0..27).flat_map(opcodes).map(|opcode| usize::from(*opcode));
    features.assert_seen("opcode", opcodes);
    features.assert_seen("class", 0..=6);
    features.assert_seen("arguments", 0..=15);
    features.assert_seen("typed argument", [0]);
    features.assert_seen("typed tagged variable or definition", [18, 19, 20, 21]);
    features.assert_seen("unparsed, empty or not", [0, 1]);
    features.assert_seen("bits, empty or not", [0, 1]);
    features.assert_seen("types of a method", [0, 1, 2, 3, 255]);
    features.assert_seen("type of length", [1, 2, 3, 4, 5, 255]);
    features.assert_seen("children of 14", [0, 1, 2, 3, 100]);
    features.assert_seen("children of 16", [0, 1, 2, 3]);
    features.assert_seen("children of 22", [0, 1, 2, 3]);
    features.assert_seen("children of 21", [0, 1]);
    features.assert_seen("children of 24", [2, 3]);
    features.assert_seen("field of a tuple", 0..=3);
    features.assert_seen("field of another", 0..=3);
    features.assert_seen("definitions", [0, 1, 2, 3, 4, 10]);
    features.assert_seen("trees", 1..=16);
    features.assert_seen("id bound in its own value", [0]);
    features.assert_seen("id shared by sibling lambdas", [0]);
    features.assert_seen("subtree of an earlier tree", [0]);
    features.assert_seen("equal subtrees of shape", [3, 4, 5, 11, 12, 16, 17]);
    features.assert_seen("equal ifs", [0]);
    features.assert_seen("projection in both branches", [0]);
    features.assert_seen("equal constants of two classes", [0]);
}
