//! Forests through the program lister, its text beside that of the reading.

use std::cmp::Ordering::{self, Equal, Greater, Less};

use cse_reference::generate::{Family, Kind};
use cse_reference::hex;
use cse_reference::lister::{listing, tells_marks, Listing};
use cse_reference::oracle::NoAnswer;
use cse_reference::rules::Rule;

use crate::asked::Asked;
use crate::compare::print_differences;
use crate::halves::in_two;
use crate::program::difference;
use crate::source::Source;

/// What came of a run, in forests.
#[derive(Default)]
struct Tally {
    /// Those whose texts were compared.
    compared: u64,
    /// Of these, those that are refused.
    refused: u64,
    /// Those with a symbol of an environment tree that the root does not reach.
    unreached: u64,
    /// Those with a definition that nothing uses.
    unused: u64,
    /// Those with a definition's line.
    defining: u64,
    /// Those with a saving on each of [`SIDES`].
    saving: [u64; 3],
    /// Those with a line of each of [`Rule::WORDS`].
    ruled: [u64; 7],
    /// Those with a symbol that has definitions in several blocks.
    several: u64,
    /// Those that tell what they have to.
    telling: u64,
    /// Those that were not compared.
    skipped: u64,
    differences: Vec<String>,
}

/// Where a saving lies, seen from zero.
const SIDES: [Ordering; 3] = [Less, Equal, Greater];

impl Tally {
    /// Counts what the text of a forest has.
    fn note(&mut self, listing: &Listing) {
        self.compared += 1;
        self.refused += u64::from(listing.text.starts_with("refused"));
        self.unreached += u64::from(listing.unreached);
        self.unused += u64::from(listing.unused);
        self.defining += u64::from(listing.defines());
        for (count, side) in self.saving.iter_mut().zip(SIDES) {
            *count += u64::from(listing.saves(side));
        }
        for (count, lines) in self.ruled.iter_mut().zip(listing.rules.counts) {
            *count += u64::from(lines > 0);
        }
        self.several += u64::from(listing.rules.several > 0);
    }

    fn join(&mut self, other: Tally) {
        self.compared += other.compared;
        self.refused += other.refused;
        self.unreached += other.unreached;
        self.unused += other.unused;
        self.defining += other.defining;
        for (count, others) in self.saving.iter_mut().zip(other.saving) {
            *count += others;
        }
        for (count, others) in self.ruled.iter_mut().zip(other.ruled) {
            *count += others;
        }
        self.several += other.several;
        self.telling += other.telling;
        self.skipped += other.skipped;
        self.differences.extend(other.differences);
    }

    /// Those with a line of the rule that fewest have.
    fn rarest(&self) -> u64 {
        self.ruled.into_iter().min().unwrap_or(0)
    }

    /// Each rule with those that have a line of it.
    fn rules(&self) -> String {
        let each = Rule::WORDS.iter().zip(self.ruled);
        let each: Vec<String> = each
            .map(|(rule, count)| format!("{rule} {count}"))
            .collect();
        each.join(", ")
    }
}

/// What a forest has to tell, where it is asked for.
#[derive(Clone, Copy)]
enum Told {
    /// Its symbols' lines would be others if the uses by all symbols counted.
    Counted,
    /// Its text would be another without marks.
    Marks,
    /// It has a saving above zero and one that is not, and its lines of definitions would be others if uses counted for all
    /// definitions of their id: so a use charged to another definition, an argument's use that is charged, a sign left out
    /// or a definition passed over shows.
    Savings,
    /// It has a line of a rule: here each rule is asked for, and so the rarest is counted.
    Rules,
}

impl Told {
    /// What the forests of a source are asked for, and that in words.
    fn of(source: Source) -> (Told, &'static str) {
        match source.family() {
            Some(Family { marked: true, .. }) => (Told::Marks, "tell marks apart"),
            Some(Family {
                kind: Kind::Savings,
                ..
            }) => (Told::Savings, "tell what is saved"),
            Some(Family {
                kind: Kind::Rules, ..
            }) => (Told::Rules, "have the rarest rule"),
            _ => (Told::Counted, "tell what is counted"),
        }
    }

    fn holds(self, forest: &[u8], listing: &Listing) -> bool {
        match self {
            Told::Counted => listing.telling,
            Told::Marks => tells_marks(forest, listing),
            Told::Savings => listing.tells_savings(),
            // Counted for the run.
            Told::Rules => false,
        }
    }
}

/// Forests of a source. Whether no text differed, and as many as is asked for were
/// compared and tell what is counted or, with marks, tell these apart; of savings what is saved; of rules each rule.
pub fn listed(source: Source, asked: Asked) -> bool {
    let Asked { least, telling, .. } = asked;
    let (told, words) = Told::of(source);
    let [mut tally, other] = in_two(asked, |seed, tally: &mut Tally| {
        compare(&source.forest(seed), told, tally);
    });
    tally.join(other);
    if let Told::Rules = told {
        tally.telling = tally.rarest();
    }
    let name = source.name();
    print_differences(&name, &tally.differences);
    let [below, zero, above] = tally.saving;
    println!(
        "{name}: {} texts compared, at least {least} asked for, {} passed over; {} refusals, {} with unreached symbols of environment trees, \
         {} with unused definitions, {} with definitions' lines, {below} with a saving below zero, {zero} of zero, {above} above, \
         {} with a symbol's definitions in several blocks; lines by rule in: {}; \
         {} that {words}, at least {telling} asked for; {} differences",
        tally.compared,
        tally.skipped,
        tally.refused,
        tally.unreached,
        tally.unused,
        tally.defining,
        tally.several,
        tally.rules(),
        tally.telling,
        tally.differences.len()
    );
    tally.differences.is_empty() && tally.compared >= least && tally.telling >= telling
}

fn compare(forest: &[u8], told: Told, tally: &mut Tally) {
    let expected = match listing(forest) {
        Ok(listing) => listing,
        Err(NoAnswer::Skipped(_)) => {
            tally.skipped += 1;
            return;
        }
        Err(other) => {
            tally
                .differences
                .push(format!("{other}: {}", hex::print(forest)));
            return;
        }
    };
    tally.note(&expected);
    tally.telling += u64::from(told.holds(forest, &expected));
    tally
        .differences
        .extend(difference("lister", forest, &expected.text));
}

#[cfg(test)]
mod tests {
    use super::*;
    use cse_reference::notation::parse;
    use cse_reference::trees::{alone, node, p};

    /// A run of rules has to meet each of them, however often it meets others.
    #[test]
    fn the_rarest_rule_is_counted() {
        let mut tally = Tally::default();
        let mut note = |forest: &[u8]| {
            tally.note(&listing(forest).unwrap());
            tally.rarest()
        };
        for text in [
            "L7.p(7,7)",
            "p(h,h)",
            "p(k,k)",
            "p(z,z)",
            "if(z,s2(z),p(s1(z),s1(z)))",
        ] {
            assert_eq!(note(&parse(text).unwrap().to_bytes()), 0, "{text}");
        }
        let global = node(2, 0xDD, 0, &[], vec![]);
        assert_eq!(note(&alone(p(global.clone(), global)).to_bytes()), 1);
        assert_eq!(
            tally.rules(),
            "argument 1, used at most once 6, context property 1, GLOBAL 1, scalar constant 1, hoisted in scope 2, \
             no definition written 1"
        );
    }
}
