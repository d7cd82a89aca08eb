//! Forests of request A.8 through the main call: where the root has a value, the written tree, read back from its bytes, has
//! to have the same.

use std::collections::BTreeMap;

use cse_library::{call, MAX_WRITTEN};
use cse_reference::check::accept;
use cse_reference::evaluate::{defines, is_simple, strict_value, value, Numbered};
use cse_reference::forest::Tree;
use cse_reference::generate::Family;
use cse_reference::hex;

use crate::asked::Asked;
use crate::compare::{by_answer, print_differences, Lent};
use crate::halves::in_two;

/// What came of a run.
#[derive(Default)]
struct Tally {
    /// Forests that were compared.
    forests: u64,
    /// Those that the request does not speak of.
    apart: u64,
    /// Those that the call refuses, by number.
    refused: BTreeMap<u32, u64>,
    /// Of each forest and each meaning.
    pairs: u64,
    /// Pairs whose root has a value, and the written tree the same.
    kept: u64,
    /// Pairs whose written tree alone has a value.
    gained: u64,
    /// Forests that skip what fails: under some meaning the root has a value, though something that it skips has none; and
    /// the written tree has a definition, which has to stand where it does not fail.
    telling: u64,
    differences: Vec<String>,
}

impl Tally {
    fn join(&mut self, other: Tally) {
        self.forests += other.forests;
        self.apart += other.apart;
        for (number, count) in other.refused {
            *self.refused.entry(number).or_default() += count;
        }
        self.pairs += other.pairs;
        self.kept += other.kept;
        self.gained += other.gained;
        self.telling += other.telling;
        self.differences.extend(other.differences);
    }

    /// Prints it all; whether nothing differed, and as many as is asked for were compared and skip what fails.
    fn print(&self, name: &str, asked: Asked) -> bool {
        let Asked { least, telling, .. } = asked;
        print_differences(name, &self.differences);
        let refused = match self.refused.is_empty() {
            true => "0 refused".to_string(),
            false => {
                let (all, numbers) = (self.refused.values().sum::<u64>(), &self.refused);
                format!("{all} refused, by number {}", by_answer(numbers))
            }
        };
        println!(
            "{name}: {} forests compared, at least {least} asked for, {} passed over, {refused}; {} pairs of forest and meaning: {} with a \
             value that is kept, {} with one in the written tree alone; {} forests skip what fails and have a definition, at least \
             {telling} asked for; {} differences",
            self.forests,
            self.apart,
            self.pairs,
            self.kept,
            self.gained,
            self.telling,
            self.differences.len()
        );
        self.differences.is_empty() && self.forests >= least && self.telling >= telling
    }

    /// A root and what is written for it, under every meaning.
    fn compare(&mut self, forest: &[u8], root: &Tree, written: &[u8]) {
        self.forests += 1;
        let read = match accept(written) {
            Ok(read) => read,
            Err(refusal) => {
                let number = refusal.number;
                let difference = format!("the written tree is refused with {number}");
                return self.differ(difference, forest, written);
            }
        };
        let [tree] = &read.trees[..] else {
            return self.differ("not one tree is written".to_string(), forest, written);
        };
        let mut skipping = false;
        for meaning in Numbered::all() {
            self.pairs += 1;
            match (value(&meaning, root), value(&meaning, tree)) {
                (None, None) => {}
                (None, Some(_)) => self.gained += 1,
                (root, written) if root == written => self.kept += 1,
                values => self.differ(lost(meaning, values), forest, written),
            }
            skipping |= skips_a_failure(meaning, root);
        }
        self.telling += u64::from(skipping && defines(tree));
    }

    fn differ(&mut self, difference: String, forest: &[u8], written: &[u8]) {
        let [forest, written] = [forest, written].map(hex::print);
        let line = format!("{difference}: {forest}, written {written}");
        self.differences.push(line);
    }
}

/// Whether a root has a value although something in it that is skipped has none.
fn skips_a_failure(meaning: Numbered, root: &Tree) -> bool {
    value(&meaning, root).is_some() && strict_value(&meaning, root).is_none()
}

fn lost(Numbered(m): Numbered, (root, written): (Option<u64>, Option<u64>)) -> String {
    let [root, written] =
        [root, written].map(|value| value.map_or("none".to_string(), |value| value.to_string()));
    format!("m {m}: {root} at the root and {written} in the written tree")
}

/// What writes a forest's tree, or refuses it with a number; tests have a wrong one.
type Write = fn(&[u8], &mut Lent) -> Result<Vec<u8>, u32>;

/// Forests of a family. Whether no value was lost, and as many as is asked for were compared and skip what fails.
pub fn valued(family: Family, asked: Asked) -> bool {
    compared(family, asked, written).print(&family.name(), asked)
}

/// Those forests of a family that the request speaks of, under every meaning.
fn compared(family: Family, asked: Asked, write: Write) -> Tally {
    let [(_, mut tally), (_, other)] = in_two(asked, |seed, (lent, tally): &mut (Lent, Tally)| {
        let forest = family.forest(seed);
        if !is_simple(&forest) {
            tally.apart += 1;
            return;
        }
        let bytes = forest.to_bytes();
        match write(&bytes, lent) {
            Ok(written) => tally.compare(&bytes, &forest.trees[0], &written),
            Err(number) => *tally.refused.entry(number).or_default() += 1,
        }
    });
    tally.join(other);
    tally
}

/// What the main call writes.
fn written(forest: &[u8], lent: &mut Lent) -> Result<Vec<u8>, u32> {
    let numbers = call(forest, &mut lent.out[..MAX_WRITTEN], &mut lent.work);
    match numbers.number {
        0 => Ok(lent.out[..numbers.written_length as usize].to_vec()),
        number => Err(number),
    }
}

#[cfg(test)]
mod tests {
    use super::*;
    use cse_reference::evaluate::Meaning;
    use cse_reference::forest::{Forest, Record};
    use cse_reference::generate::Kind;
    use cse_reference::trees::{alone, and, block, h, if_, k, node, p, val_use, z};

    const BLOCK_VALUE: u8 = 11;
    const FUNC_VALUE: u8 = 12;
    const SELECT_FIELD: u8 = 17;

    fn asked(count: u64) -> Asked {
        Asked {
            count,
            seed: 1,
            least: count,
            telling: 0,
        }
    }

    fn has(tree: &Tree, shape: u8) -> bool {
        tree.record.shape == shape || tree.children.iter().any(|child| has(child, shape))
    }

    /// What comes of a forest of one tree and what is written for it.
    fn tally(root: &Tree, written: &Tree) -> Tally {
        let mut tally = Tally::default();
        let [forest, written] = [root, written].map(|tree| alone(tree.clone()).to_bytes());
        tally.compare(&forest, root, &written);
        tally
    }

    /// The tree with the definitions of a block in a branch or right operand moved before the IF, ED or EC, if there is one.
    fn moved_out(tree: &Tree) -> Option<Tree> {
        let mut out = tree.clone();
        for (i, child) in tree.children.iter().enumerate() {
            let skippable = match tree.record.opcode {
                0x95 => i > 0,
                0xED | 0xEC => i == 1,
                _ => false,
            };
            if skippable && child.record.shape == BLOCK_VALUE {
                let mut items = child.children.clone();
                out.children[i] = items.pop()?;
                items.push(out);
                return Some(node(BLOCK_VALUE, 0xD8, 0, &[], items));
            }
            if let Some(moved) = moved_out(child) {
                out.children[i] = moved;
                return Some(out);
            }
        }
        None
    }

    /// What is written, with definitions moved out of a branch.
    fn written_moved(forest: &[u8], lent: &mut Lent) -> Result<Vec<u8>, u32> {
        let bytes = written(forest, lent)?;
        let tree = accept(&bytes).expect("a written tree is accepted");
        let moved = moved_out(&tree.trees[0]).map(|tree| alone(tree).to_bytes());
        Ok(moved.unwrap_or(bytes))
    }

    #[test]
    fn a_definition_moved_out_of_a_branch_is_noticed() {
        let sum = |of: fn() -> Tree| p(of(), of());
        let uses = || p(val_use(1), val_use(1));
        let root = if_(h(), sum(z), k());
        let right = if_(h(), block(vec![(1, z())], uses()), k());
        let found = tally(&root, &right);
        assert_eq!((found.forests, found.pairs, found.gained), (1, 16, 0));
        assert_eq!((found.telling, found.differences.len()), (1, 0));
        let wrong = moved_out(&right).expect("there is a block in a branch");
        assert_eq!(wrong, block(vec![(1, z())], if_(h(), uses(), k())));
        let differences = tally(&root, &wrong).differences;
        // Where z fails, at 1, 6 and 11, h is even at the first two, and k is taken.
        for (line, m) in differences.iter().zip([1, 6]) {
            let words = " at the root and none in the written tree: 0100";
            assert!(line.starts_with(&format!("m {m}: ")), "{line}");
            assert!(line.contains(words), "{line}");
        }
        assert_eq!(differences.len(), 2);
        let found = compared(Kind::Simple.into(), asked(400), written_moved);
        let lost = |line: &&String| line.contains("none in the written tree");
        assert!(found.differences.iter().filter(lost).count() > 20);
        assert!(!found.print("moved", asked(1)));
    }

    #[test]
    fn another_value_and_what_is_no_tree_are_noticed() {
        let differences = tally(&p(h(), k()), &p(k(), h())).differences;
        assert!(differences[0].starts_with("m 0: "), "{differences:?}");
        assert!(!differences[0].contains("none"), "{differences:?}");
        let differences = tally(&h(), &val_use(1)).differences;
        assert!(
            differences[0].contains("refused with 10"),
            "{differences:?}"
        );
    }

    #[test]
    fn what_is_gained_is_no_difference() {
        let found = tally(&block(vec![(1, z())], h()), &h());
        // z fails at 1, 6 and 11, h at 4, 9 and 14.
        assert_eq!((found.kept, found.gained), (10, 3));
        assert_eq!((found.telling, found.differences.len()), (0, 0));
        assert!(found.print("gained", asked(1)));
    }

    #[test]
    fn without_a_definition_skipping_tells_nothing() {
        let root = and(k(), z());
        let some = |meaning| skips_a_failure(meaning, &root);
        assert!(Numbered::all().any(some));
        assert_eq!(tally(&root, &root).telling, 0);
    }

    #[test]
    fn simple_forests_keep_their_values() {
        let found = compared(Kind::Simple.into(), asked(300), written);
        assert_eq!((found.apart, found.differences.len()), (0, 0));
        assert_eq!(found.forests + found.refused.values().sum::<u64>(), 300);
        assert_eq!(found.pairs, 16 * found.forests);
        assert!(found.kept > 500 && found.gained > 20 && found.telling > 20);
    }

    /// Field 2 fails; the numbered meanings alone never tell field 2 from field 1 by that.
    struct WithoutField2(Numbered);

    impl Meaning for WithoutField2 {
        type Value = u64;

        fn apply(&self, record: &Record, operands: &[u64]) -> Option<u64> {
            let fails = record.shape == SELECT_FIELD && record.literal == [2];
            (!fails).then(|| self.0.apply(record, operands))?
        }

        fn takes_first(&self, condition: &u64) -> bool {
            self.0.takes_first(condition)
        }

        fn skips_right(&self, opcode: u8, left: &u64) -> bool {
            self.0.skips_right(opcode, left)
        }
    }

    /// How many of those forests of a kind that are wanted lose a value.
    fn losing<M: Meaning<Value = u64>>(
        kind: Kind,
        wanted: fn(&Forest) -> bool,
        meaning: fn(Numbered) -> M,
    ) -> usize {
        let mut lent = Lent::default();
        let loses = |forest: &Forest| {
            let Ok(bytes) = written(&forest.to_bytes(), &mut lent) else {
                return false;
            };
            let tree = &accept(&bytes).expect("a written tree is accepted").trees[0];
            let root = forest.trees.last().expect("a forest has a root");
            let mut meanings = Numbered::all().map(meaning);
            meanings
                .any(|meaning| value(&meaning, root).is_some() && value(&meaning, tree).is_none())
        };
        let forests = (0..8_000).map(|seed| Family::from(kind).forest(seed));
        forests.filter(wanted).filter(loses).count()
    }

    /// Why the request asks for one tree and no SelectField.
    #[test]
    fn with_environment_trees_or_fields_values_are_lost() {
        fn environment(forest: &Forest) -> bool {
            let without = |tree: &Tree| !has(tree, FUNC_VALUE) && !has(tree, SELECT_FIELD);
            forest.trees.len() > 1 && forest.trees.iter().all(without)
        }
        fn fields(forest: &Forest) -> bool {
            let root = &forest.trees[0];
            forest.trees.len() == 1 && has(root, SELECT_FIELD) && !has(root, FUNC_VALUE)
        }
        assert!(losing(Kind::Thunks, environment, |meaning| meaning) > 0);
        assert!(losing(Kind::Projections, fields, WithoutField2) > 0);
    }

    #[test]
    fn fewer_than_are_asked_for_is_a_failure() {
        let tally = Tally {
            forests: 5,
            telling: 3,
            ..Tally::default()
        };
        let prints = |least, telling| {
            let asked = Asked {
                least,
                telling,
                ..asked(5)
            };
            tally.print("forests", asked)
        };
        assert!(prints(5, 3));
        assert!(!prints(6, 3));
        assert!(!prints(5, 4));
    }
}
