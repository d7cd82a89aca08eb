//! Values of trees, where operations may fail; what the original makes of them.

use std::cell::RefCell;

use cse_reference::check::accept;
use cse_reference::evaluate::{is_simple, strict_value, value, Meaning, Numbered};
use cse_reference::forest::{Forest, Record, Tree};
use cse_reference::generate::{Family, Kind};
use cse_reference::oracle::{answer, MAX_OUTPUT, MIN_WORK_WORDS};
use cse_reference::trees::*;

/// HEIGHT is 5, a constant is 0, and z fails, like a register that is not there. Field 1 is 0, and field 2 fails. p adds, a
/// division fails at 0, IF gives the branch taken, and ED the last value that it finds. 0 is false.
struct Plain;

impl Meaning for Plain {
    type Value = u64;

    fn apply(&self, record: &Record, operands: &[u64]) -> Option<u64> {
        match (record.shape, record.opcode, operands) {
            (_, 0xA3, []) => Some(5),
            (0, _, []) => Some(0),
            (17, _, [_]) => (record.literal == [1]).then_some(0),
            (_, 0x9A, [a, b]) => Some(a + b),
            (_, 0x9D, [a, b]) => a.checked_div(*b),
            (_, 0x95, [_, taken]) => Some(*taken),
            (_, 0xED, [.., last]) => Some(*last),
            _ => None,
        }
    }

    fn takes_first(&self, condition: &u64) -> bool {
        *condition != 0
    }

    fn skips_right(&self, _: u8, left: &u64) -> bool {
        *left == 0
    }
}

fn div(a: Tree, b: Tree) -> Tree {
    node(4, 0x9D, 0, &[], vec![a, b])
}

fn or(a: Tree, b: Tree) -> Tree {
    node(4, 0xEC, 0, &[], vec![a, b])
}

/// The tree that the original writes.
fn written(forest: &Forest) -> Tree {
    let given = answer(&forest.to_bytes(), MAX_OUTPUT, MIN_WORK_WORDS).unwrap();
    assert_eq!(given.number, 0);
    accept(&given.tree).unwrap().trees.remove(0)
}

/// What is written, and the values of the root and of the written tree.
fn told(forest: &Forest, tree: Tree, values: [Option<u64>; 2]) {
    let given = written(forest);
    assert_eq!(given, tree);
    let root = forest.trees.last().unwrap();
    assert_eq!([value(&Plain, root), value(&Plain, &given)], values);
}

/// The forests of crates/model/specs/FailingExamples.antt, with the values that it states.
#[test]
fn kept_gained_and_lost() {
    let kept = alone(if_(h(), p(div(h(), h()), div(h(), h())), div(h(), k())));
    let inside = block(vec![(1, div(h(), h()))], p(val_use(1), val_use(1)));
    told(&kept, if_(h(), inside, div(h(), k())), [Some(2), Some(2)]);
    assert_eq!(strict_value(&Plain, &kept.trees[0]), None);

    let unused = alone(block(vec![(1, div(h(), k()))], h()));
    told(&unused, h(), [None, Some(5)]);

    let environment = Forest {
        trees: vec![z(), and(k(), p(z(), z()))],
    };
    let uses = || p(val_use(1), val_use(1));
    let outside = block(vec![(1, z())], and(k(), uses()));
    told(&environment, outside, [Some(0), None]);

    let s2 = || select(2, h());
    let fields = alone(and(s1(h()), p(s2(), s2())));
    let outside = block(vec![(1, s2())], and(s1(h()), uses()));
    told(&fields, outside, [Some(0), None]);

    let simple = [&kept, &unused, &environment, &fields].map(is_simple);
    assert_eq!(simple, [true, true, false, false]);
    assert!(!is_simple(&alone(n(lambda(&[1], z())))));
}

/// A definition's value is found once, before what follows it, used or not, and is not in force elsewhere.
#[test]
fn blocks() {
    let sum = block(vec![(1, h()), (2, p(val_use(1), val_use(1)))], val_use(2));
    assert_eq!(value(&Plain, &sum), Some(10));
    let inner = block(vec![(1, h())], p(val_use(1), h()));
    assert_eq!(
        value(&Plain, &block(vec![(1, inner.clone())], val_use(1))),
        Some(10)
    );
    let twice = p(inner.clone(), block(vec![(1, k())], val_use(1)));
    assert_eq!(value(&Plain, &twice), Some(10));
    assert_eq!(value(&Plain, &block(vec![(1, z())], h())), None);
    assert_eq!(
        value(&Plain, &and(k(), block(vec![(1, z())], h()))),
        Some(0)
    );
    assert_eq!(value(&Plain, &lambda(&[1], h())), None);
}

/// Notes what is applied. A leaf gives its opcode, z fails, and an operation gives the number of values that it is given.
/// Odd is true, and EC skips where ED does not.
#[derive(Default)]
struct Noting {
    seen: RefCell<Vec<(u8, Vec<u64>)>>,
}

impl Meaning for Noting {
    type Value = u64;

    fn apply(&self, record: &Record, operands: &[u64]) -> Option<u64> {
        let mut seen = self.seen.borrow_mut();
        seen.push((record.opcode, operands.to_vec()));
        match operands {
            [] => (record.opcode != 0xFE).then_some(record.opcode.into()),
            _ => Some(operands.len() as u64),
        }
    }

    fn takes_first(&self, condition: &u64) -> bool {
        condition % 2 == 1
    }

    fn skips_right(&self, opcode: u8, left: &u64) -> bool {
        (left % 2 == 1) == (opcode == 0xEC)
    }
}

fn noted(tree: &Tree) -> (Option<u64>, Vec<(u8, Vec<u64>)>) {
    let noting = Noting::default();
    let value = value(&noting, tree);
    (value, noting.seen.into_inner())
}

#[test]
fn what_is_skipped_is_not_looked_at() {
    const H: u64 = 0xA3;
    let (height, constant) = ((0xA3, vec![]), (0x00, vec![]));
    let taken = (
        Some(2),
        vec![height.clone(), height.clone(), (0x95, vec![H, H])],
    );
    assert_eq!(noted(&if_(h(), h(), z())), taken);
    let other = (
        Some(2),
        vec![constant.clone(), height.clone(), (0x95, vec![0, H])],
    );
    assert_eq!(noted(&if_(k(), z(), h())), other);
    let skipped = (Some(1), vec![constant.clone(), (0xED, vec![0])]);
    assert_eq!(noted(&and(k(), z())), skipped);
    let both = (
        Some(2),
        vec![height.clone(), constant.clone(), (0xED, vec![H, 0])],
    );
    assert_eq!(noted(&and(h(), k())), both);
    let skipped = (Some(1), vec![height.clone(), (0xEC, vec![H])]);
    assert_eq!(noted(&or(h(), z())), skipped);
    assert_eq!(noted(&or(k(), z())).0, None);
    // Other operands are all found, up to the first that fails.
    let all = vec![height.clone(), constant.clone(), (0x9A, vec![H, 0])];
    assert_eq!(noted(&p(h(), k())), (Some(2), all));
    let failed = vec![height.clone(), (0xFE, vec![])];
    assert_eq!(noted(&tuple(vec![h(), z(), k()])), (None, failed));
    let defined = block(vec![(1, h())], p(k(), val_use(1)));
    let order = vec![height, constant, (0x9A, vec![0, H])];
    assert_eq!(noted(&defined), (Some(2), order));
}

/// Strictly there is no other value; at most there is none.
#[test]
fn strict_values() {
    assert_eq!(strict_value(&Plain, &and(k(), z())), None);
    assert_eq!(strict_value(&Plain, &and(k(), h())), Some(0));
    assert_eq!(strict_value(&Plain, &if_(h(), h(), z())), None);
    assert_eq!(strict_value(&Plain, &if_(k(), z(), h())), None);
    assert_eq!(strict_value(&Plain, &if_(k(), k(), h())), Some(5));
    let nested = and(k(), and(k(), z()));
    assert_eq!(value(&Plain, &nested), Some(0));
    assert_eq!(strict_value(&Plain, &nested), None);
}

/// By hand: h weighs 2 + 3 × 163 = 491, k 3 × 5 + 4 + 2 × 2 = 23, and p 4 + 3 × 154 = 466.
#[test]
fn numbered_meanings() {
    let of = |m, tree: &Tree| value(&Numbered(m), tree);
    assert_eq!(of(0, &h()), Some(491 % 7));
    assert_eq!(of(4, &h()), None);
    assert_eq!(of(0, &k()), Some(2));
    assert_eq!(of(2, &k()), None);
    assert_eq!(of(0, &marked(k(), 1)), Some((23 + 35) % 7));
    // 154 and 2 are a multiple of 3: p divides. At 2, h is 3, and k fails.
    assert_eq!(of(0, &p(h(), k())), Some((466 + 2 + 3 * 2) % 7));
    assert_eq!(of(2, &p(h(), h())), Some((468 + 5 * 3) / 3 % 7));
    // 154 and 5 too. There h is 6, and k is 0, as 28 is 4 times 7.
    assert_eq!(of(5, &k()), Some(0));
    assert_eq!(of(5, &p(k(), h())), Some((471 + 3 * 6) / 6 % 7));
    assert_eq!(of(5, &p(h(), k())), None);
    // An operation without operands is like a leaf: a tuple weighs 16 + 3 × 134 = 418.
    assert_eq!(of(0, &tuple(vec![])), Some(5));
    assert_eq!(of(2, &tuple(vec![])), None);
    // At 0, h is 1 and k is 2. ED weighs 4 + 3 × 237 = 715 and divides there, EC 712, IF 5 + 3 × 149 = 452.
    assert_eq!(of(0, &and(k(), z())), Some((715 + 2 * 2) / 2 % 7));
    assert_eq!(of(0, &and(h(), k())), Some((715 + 2 + 3 * 2) / 2 % 7));
    assert_eq!(of(0, &or(h(), z())), Some((712 + 2) % 7));
    assert_eq!(of(0, &or(k(), h())), Some((712 + 2 * 2 + 3) % 7));
    assert_eq!(of(0, &if_(h(), k(), z())), Some((452 + 2 + 3 * 2) % 7));
    assert_eq!(of(0, &if_(k(), z(), h())), Some((452 + 2 * 2 + 3) % 7));
}

/// "If the root has a value, the written tree has that value." The proved call is held to it at length by `beside values`.
#[test]
fn the_original_keeps_values() {
    let mut kept = 0;
    for seed in 0..400 {
        let forest = Family::from(Kind::Simple).forest(seed);
        let given = answer(&forest.to_bytes(), MAX_OUTPUT, MIN_WORK_WORDS);
        let Some(given) = given.ok().filter(|given| given.number == 0) else {
            continue;
        };
        let written = accept(&given.tree).unwrap();
        for meaning in Numbered::all() {
            let root = value(&meaning, &forest.trees[0]);
            if root.is_some() {
                let written = value(&meaning, &written.trees[0]);
                assert_eq!(written, root, "{meaning:?} {seed}");
                kept += 1;
            }
        }
    }
    assert!(kept > 1_000, "{kept}");
}
