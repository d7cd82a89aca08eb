//! Templates and their fillings through the main call: what it gives for a filled forest has to be what it gives for the
//! template, filled.

use std::collections::BTreeMap;

use cse_library::{call, MAX_WRITTEN, WORK_WORDS};
use cse_reference::check::accept;
use cse_reference::forest::Tree;
use cse_reference::generate::{Family, Way};
use cse_reference::hex;
use cse_reference::oracle::{without_marks, Answer};
use cse_reference::template::{fill, values, Filling};

use crate::asked::Asked;
use crate::compare::{self, by_answer, compare_call, hold, print_differences, Lent, LONGEST};
use crate::halves::in_two;

/// A longer forest is refused with 2.
const MAX_FOREST: usize = 65_535;

/// No written tree has more.
const MAX_RECORDS: usize = 256;

const CONST: u8 = 0;
const VAL_DEF: u8 = 10;

/// What came of a run.
#[derive(Default)]
struct Tally {
    /// Templates all of whose fillings were compared.
    templates: u64,
    /// Those with a written definition that holds a parameter.
    defining: u64,
    /// Fillings that were compared, by number where plenty is lent.
    fillings: BTreeMap<u32, u64>,
    /// Those of them that are refused as the template is.
    alike: u64,
    /// Those of each way that tell marks apart.
    telling: [u64; Way::ALL.len()],
    /// Fillings whose answer does not follow from the template's, and was only held to the Rust's.
    apart: u64,
    /// The calls on filled forests, beside the Rust too.
    calls: compare::Tally,
}

impl Tally {
    fn join(&mut self, other: Tally) {
        self.templates += other.templates;
        self.defining += other.defining;
        for (number, count) in other.fillings {
            *self.fillings.entry(number).or_default() += count;
        }
        self.alike += other.alike;
        for (count, other) in self.telling.iter_mut().zip(other.telling) {
            *count += other;
        }
        self.apart += other.apart;
        self.calls.join(other.calls);
    }

    /// Prints it all; whether nothing differed, no call took too long, and as many templates as is asked for were compared
    /// and tell marks apart when their parameters are equal.
    fn print(&self, name: &str, asked: Asked) -> bool {
        let Asked { least, telling, .. } = asked;
        let differences = &self.calls.differences;
        print_differences(name, differences);
        let [equal, lengths, unmarked] = self.telling;
        let (time, slowest) = self.calls.slowest;
        println!(
            "{name}: {} templates compared, at least {least} asked for, {} with a definition that holds a parameter; {} fillings, {} passed \
             over; by answer {}, {} refused as the template is; that tell marks apart: {equal} of equal values, at least {telling} asked for, \
             {lengths} of drawn ones, {unmarked} of those of constants without mark; {} beside the Rust; slowest call {:.3} ms, of seed \
             {slowest}; {} differences",
            self.templates,
            self.defining,
            self.fillings.values().sum::<u64>(),
            self.apart,
            by_answer(&self.fillings),
            self.alike,
            self.calls.calls.values().sum::<u64>(),
            time.as_secs_f64() * 1e3,
            differences.len()
        );
        differences.is_empty() && time <= LONGEST && self.templates >= least && equal >= telling
    }
}

/// How forests and written trees are filled; tests have wrong ones.
type Fill = fn(&[u8], &Filling) -> Vec<u8>;

/// Templates of a family, each filled in every way. Whether nothing differed, no call took too long, and as many as is asked
/// for were compared and tell marks apart when their parameters are equal.
pub fn filled(family: Family, asked: Asked) -> bool {
    compared(family, asked, fill).print(&family.name(), asked)
}

fn compared(family: Family, asked: Asked, fill: Fill) -> Tally {
    let [(_, mut tally), (_, other)] = in_two(asked, |seed, (lent, tally)| {
        compare(family, seed, fill, lent, tally);
    });
    tally.join(other);
    tally
}

/// One template in every way.
fn compare(family: Family, seed: u64, fill: Fill, lent: &mut Lent, tally: &mut Tally) {
    let forest = family.template(seed);
    let bytes = forest.to_bytes();
    let Some(template) = Template::of(bytes.clone(), fill, lent) else {
        let difference = format!("no template: {}", hex::print(&bytes));
        return tally.calls.differences.push(difference);
    };
    let compared = Way::ALL.map(|way| {
        let filling = way.filling(seed, &forest);
        let filled = fill(&template.bytes, &filling);
        // One of them beside the Rust, which takes far longer than the call.
        if seed % Way::ALL.len() as u64 == way as u64 {
            let calls = &mut tally.calls;
            compare_call(&filled, MAX_WRITTEN, WORK_WORDS, seed, lent, calls);
        }
        let told = template.compare(&filled, &filling, seed, lent, tally);
        tally.telling[way as usize] += u64::from(told == Some(true));
        told.is_some()
    });
    if compared == [true; 3] {
        tally.templates += 1;
        tally.defining += u64::from(template.defines_parameter());
    }
}

/// A template and what the main call gives for it.
struct Template {
    bytes: Vec<u8>,
    given: Answer,
    fill: Fill,
}

impl Template {
    /// None if the bytes are no template, or the call refuses them as if they were not accepted.
    fn of(bytes: Vec<u8>, fill: Fill, lent: &mut Lent) -> Option<Template> {
        accept(&bytes).ok()?;
        let parameters = values(&bytes).ok()?.into_keys();
        let mut template = Template::called(bytes, fill, lent);
        if template.given.number == 13 {
            // The tree has too many records, or with these values too many bytes. The shortest filling, a template like
            // any, says which: if it is refused for its bytes too, so is every other.
            let shortest = parameters.map(|aux| (aux, vec![0])).collect();
            template = Template::called(fill(&template.bytes, &shortest), fill, lent);
        }
        matches!(template.given.number, 0 | 11..).then_some(template)
    }

    fn called(bytes: Vec<u8>, fill: Fill, lent: &mut Lent) -> Template {
        let given = answer(&bytes, MAX_WRITTEN, lent);
        Template { bytes, given, fill }
    }

    /// A filled forest, with plenty lent, an output exactly long enough and one a byte shorter. Whether it tells marks apart;
    /// none if its answer does not follow from the template's.
    fn compare(
        &self,
        filled: &[u8],
        filling: &Filling,
        seed: u64,
        lent: &mut Lent,
        tally: &mut Tally,
    ) -> Option<bool> {
        let calls = &mut tally.calls;
        let Some(expected) = self.expected(filled, filling, lent) else {
            compare_call(filled, MAX_WRITTEN, WORK_WORDS, seed, lent, calls);
            tally.apart += 1;
            return None;
        };
        let mut one = |room: usize, expected: &Answer| {
            let held = hold(filled, room, WORK_WORDS, expected, seed, lent, calls);
            calls.differences.extend(held.err().map(|difference| {
                let template = hex::print(&self.bytes);
                format!(
                    "{difference}: {room} {}, {template} filled",
                    hex::print(filled)
                )
            }));
        };
        one(MAX_WRITTEN, &expected);
        if expected.number == 0 {
            one(expected.tree.len(), &expected);
            one(expected.tree.len() - 1, &refusal(13));
        }
        *tally.fillings.entry(expected.number).or_default() += 1;
        tally.alike += u64::from(expected.number != 0 && expected == self.given);
        Some(tells_marks(filled, &expected, lent))
    }

    /// What the call has to give for a filled forest where plenty is lent, by what it gave for the template.
    fn expected(&self, filled: &[u8], filling: &Filling, lent: &mut Lent) -> Option<Answer> {
        if filled.len() > MAX_FOREST {
            return Some(refusal(2));
        }
        match self.given.number {
            0 => {
                let tree = (self.fill)(&self.given.tree, filling);
                let written_length = tree.len() as u32;
                Some(match tree.len() <= MAX_WRITTEN {
                    true => Answer {
                        written_length,
                        tree,
                        ..self.given
                    },
                    false => refusal(13),
                })
            }
            // 13 comes first, and how long the tree is the call does not say.
            14 if !self.has_room(filling, lent) => None,
            _ => Some(self.given.clone()),
        }
    }

    /// Whether the written tree would not be too long with the longest value in each of its records.
    fn has_room(&self, filling: &Filling, lent: &mut Lent) -> bool {
        let longest = filling.values().map(Vec::len).max().unwrap_or(0);
        let room = MAX_WRITTEN.checked_sub(MAX_RECORDS * longest);
        room.is_some_and(|room| answer(&self.bytes, room, lent) == self.given)
    }

    fn defines_parameter(&self) -> bool {
        let written = accept(&self.given.tree).map(|written| written.trees);
        written.is_ok_and(|trees| trees.iter().any(defines_parameter))
    }
}

fn defines_parameter(tree: &Tree) -> bool {
    let own = tree.record.shape == VAL_DEF && holds_parameter(tree);
    own || tree.children.iter().any(defines_parameter)
}

fn holds_parameter(tree: &Tree) -> bool {
    let own = tree.record.shape == CONST && tree.record.mark() > 0;
    own || tree.children.iter().any(holds_parameter)
}

/// Whether marks matter to a forest with that answer: without them the call gives other symbols or another tree, the marks
/// in the tree left aside.
fn tells_marks(forest: &[u8], given: &Answer, lent: &mut Lent) -> bool {
    let Some(unmarked) = without_marks(forest) else {
        return false;
    };
    let other = answer(&unmarked, MAX_WRITTEN, lent);
    // A refusal has no tree.
    let tree = without_marks(&given.tree).unwrap_or_default();
    (other.symbols, other.tree) != (given.symbols, tree)
}

/// What the main call gives.
fn answer(forest: &[u8], room: usize, lent: &mut Lent) -> Answer {
    let numbers = call(forest, &mut lent.out[..room], &mut lent.work);
    Answer {
        number: numbers.number,
        place: numbers.place,
        written_length: numbers.written_length,
        symbols: numbers.symbols,
        readings: numbers.readings,
        tree: lent.out[..numbers.written_length as usize].to_vec(),
    }
}

/// A refusal for what has no place.
fn refusal(number: u32) -> Answer {
    Answer {
        number,
        place: 0,
        written_length: 0,
        symbols: 0,
        readings: 0,
        tree: Vec::new(),
    }
}

#[cfg(test)]
mod tests {
    use super::*;
    use cse_reference::generate::Kind;
    use cse_reference::notation::parse;

    const MARKED: Family = Family {
        kind: Kind::Medium,
        marked: true,
    };

    fn asked(count: u64) -> Asked {
        Asked {
            count,
            seed: 1,
            least: count,
            telling: 0,
        }
    }

    /// Parameters of class 6 with these marks.
    fn filling(values: &[(u8, &[u8])]) -> Filling {
        let values = values.iter();
        values
            .map(|(mark, value)| (6 + 7 * mark, value.to_vec()))
            .collect()
    }

    fn template(forest: &[u8], fill: Fill) -> Template {
        Template::of(forest.to_vec(), fill, &mut Lent::default()).expect("it is a template")
    }

    fn of(text: &str) -> Vec<u8> {
        parse(text).expect("it is a forest").to_bytes()
    }

    /// What is noticed when the template is filled so, and whether the filled forest tells marks apart.
    fn noticed(template: &Template, filling: &Filling) -> (Vec<String>, Option<bool>) {
        let mut tally = Tally::default();
        let filled = (template.fill)(&template.bytes, filling);
        let told = template.compare(&filled, filling, 1, &mut Lent::default(), &mut tally);
        (tally.calls.differences, told)
    }

    /// Fills constants without mark too, with the first value.
    fn fill_all(bytes: &[u8], filling: &Filling) -> Vec<u8> {
        let mut forest = accept(bytes).expect("it is accepted");
        for constant in forest.constants_mut() {
            let first = filling.values().next().expect("there are parameters");
            let value = filling.get(&constant.aux).unwrap_or(first);
            constant.literal.clone_from(value);
        }
        forest.to_bytes()
    }

    /// What the forest is to a pass that leaves marks out of its keys.
    fn fill_without_marks(bytes: &[u8], filling: &Filling) -> Vec<u8> {
        let filled = fill(bytes, filling);
        without_marks(&filled).unwrap_or(filled)
    }

    /// Leaves the directory as it is.
    fn fill_at_old_places(bytes: &[u8], filling: &Filling) -> Vec<u8> {
        let mut filled = fill(bytes, filling);
        let records = usize::from(u16::from_le_bytes([bytes[2], bytes[3]]));
        let directory = 4..4 + 4 * records;
        filled[directory.clone()].copy_from_slice(&bytes[directory]);
        filled
    }

    #[test]
    fn equal_values_of_two_parameters_are_no_definition() {
        let template = template(&of("p(x:1,x:2)"), fill);
        let (differences, told) = noticed(&template, &filling(&[(1, &[9]), (2, &[9])]));
        assert_eq!((differences, told), (vec![], Some(true)));
        assert!(!template.defines_parameter());
        let (differences, told) = noticed(&template, &filling(&[(1, &[9]), (2, &[9, 9])]));
        assert_eq!((differences, told), (vec![], Some(false)));
    }

    #[test]
    fn a_definition_that_holds_a_parameter_is_found() {
        for (text, holds) in [("p(n(x:1),n(x:1))", true), ("p(x:1,n(p(z,z)))", false)] {
            assert_eq!(
                template(&of(text), fill).defines_parameter(),
                holds,
                "{text}"
            );
        }
    }

    #[test]
    fn a_pass_that_leaves_marks_out_is_noticed() {
        let template = template(&of("p(x:1,x:2)"), fill_without_marks);
        let (differences, _) = noticed(&template, &filling(&[(1, &[9]), (2, &[9])]));
        assert!(differences[0].contains("and not"), "{differences:?}");
        let values = filling(&[(1, &[9]), (2, &[9, 9])]);
        assert_eq!(noticed(&template, &values).0, Vec::<String>::new());
    }

    #[test]
    fn a_wrong_tree_is_noticed() {
        let mut wrong = template(&of("p(n(x:1),n(x:1))"), fill);
        *wrong.given.tree.last_mut().expect("there are bytes") ^= 1;
        let (differences, _) = noticed(&wrong, &filling(&[(1, &[9])]));
        assert!(differences[0].starts_with("wrote "), "{differences:?}");
        let mut wrong = template(&of("p(n(x:1),n(x:1))"), fill);
        wrong.given.readings += 1;
        assert!(!noticed(&wrong, &filling(&[(1, &[9])])).0.is_empty());
    }

    #[test]
    fn a_refusal_stays_and_another_is_noticed() {
        let readings = (0..10).fold("x:1".to_string(), |of, _| format!("s1(tuple({of}))"));
        let mut refused = template(&of(&readings), fill);
        assert_eq!(refused.given.number, 11);
        let filling = filling(&[(1, &[9, 9])]);
        assert_eq!(noticed(&refused, &filling).0, Vec::<String>::new());
        refused.given.place += 1;
        assert_eq!(noticed(&refused, &filling).0.len(), 1);
    }

    /// Lengths of the value of `p(x:1,p(z,z))`, whose written tree is longer than the forest.
    #[test]
    fn a_forest_or_tree_that_is_too_long_is_refused() {
        let forest = of("p(x:1,p(z,z))");
        let short = template(&forest, fill);
        let tree = short.given.tree.len();
        for (length, number) in [
            (MAX_WRITTEN - tree + 2, 0),
            (MAX_WRITTEN - tree + 3, 13),
            (MAX_FOREST - forest.len() + 2, 13),
            (MAX_FOREST - forest.len() + 3, 2),
        ] {
            let filling = filling(&[(1, &vec![7; length])]);
            let filled = fill(&forest, &filling);
            let expected = short.expected(&filled, &filling, &mut Lent::default());
            assert_eq!(expected.expect("it is told").number, number, "{length}");
            assert_eq!(noticed(&short, &filling).0, Vec::<String>::new());
            if number == 13 {
                // A template that is refused for its bytes alone says what its shorter fillings give.
                let long = template(&filled, fill);
                assert_eq!((long.given.number, long.given.tree.len()), (0, tree - 1));
            }
        }
    }

    #[test]
    fn wrong_fillers_are_noticed() {
        let right = compared(MARKED, asked(60), fill);
        assert_eq!((right.templates, right.calls.differences), (60, vec![]));
        for wrong in [fill_all, fill_without_marks, fill_at_old_places] {
            let differences = compared(MARKED, asked(60), wrong).calls.differences;
            assert!(!differences.is_empty());
        }
    }

    #[test]
    fn fewer_than_are_asked_for_is_a_failure() {
        let tally = Tally {
            templates: 5,
            telling: [3, 9, 9],
            ..Tally::default()
        };
        let prints = |least, telling| {
            let asked = Asked {
                least,
                telling,
                ..asked(5)
            };
            tally.print("templates", asked)
        };
        assert!(prints(5, 3));
        assert!(!prints(6, 3));
        assert!(!prints(5, 4));
    }

    #[test]
    fn a_difference_is_a_failure() {
        let mut tally = Tally {
            templates: 5,
            ..Tally::default()
        };
        assert!(tally.print("templates", asked(5)));
        tally.calls.differences.push("one".to_string());
        assert!(!tally.print("templates", asked(5)));
    }
}
