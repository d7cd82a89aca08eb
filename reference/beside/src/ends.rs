//! Forests through the check of the library, which says where subtrees end: number, place, all entries and all words beside
//! the reading.

use std::collections::BTreeMap;

use cse_library::{check, Checked, ENTRIES, WORK_WORDS};
use cse_reference::check::accept;
use cse_reference::ends::{entries, telling};
use cse_reference::hex;

use crate::asked::Asked;
use crate::compare::{by_answer, print_differences};
use crate::halves::in_two;
use crate::source::Source;

/// Words past those that the check uses.
const SPARE: usize = 16;

/// What came of a run.
#[derive(Default)]
struct Tally {
    /// Forests by the number that the check has to give where plenty is lent.
    compared: BTreeMap<u32, u64>,
    /// Those with a record that ends neither at the next one nor where its tree does.
    telling: u64,
    /// Calls with a word too few.
    too_few: u64,
    differences: Vec<String>,
}

impl Tally {
    fn join(&mut self, other: Tally) {
        for (number, count) in other.compared {
            *self.compared.entry(number).or_default() += count;
        }
        self.telling += other.telling;
        self.too_few += other.too_few;
        self.differences.extend(other.differences);
    }

    /// Prints it all; whether nothing differed, and as many as is asked for were compared and tell ends from shorter rules.
    fn print(&self, name: &str, asked: Asked) -> bool {
        let Asked { least, telling, .. } = asked;
        let compared: u64 = self.compared.values().sum();
        print_differences(name, &self.differences);
        println!(
            "{name}: the ends of {compared} forests compared, at least {least} asked for, by answer {}; {} of them again with a word too few; \
             {} with a record that ends neither at the next one nor where its tree does, at least {telling} asked for; {} differences",
            by_answer(&self.compared),
            self.too_few,
            self.telling,
            self.differences.len()
        );
        self.differences.is_empty() && compared >= least && self.telling >= telling
    }
}

/// Forests of a source. Whether nothing differed, and as many as is asked for were compared and tell ends from shorter rules.
pub fn compared(source: Source, asked: Asked) -> bool {
    let [mut tally, other] = in_two(asked, |seed, tally: &mut Tally| {
        compare(&source.forest(seed), seed, tally);
    });
    tally.join(other);
    tally.print(&source.name(), asked)
}

/// One forest: lent plenty, at times more, and at times a word too few.
fn compare(forest: &[u8], seed: u64, tally: &mut Tally) {
    let (number, place) = match accept(forest) {
        Ok(_) => (0, 0),
        Err(refusal) => (refusal.number, refusal.place),
    };
    let ends = entries(forest);
    *tally.compared.entry(number).or_default() += 1;
    let records = ends.iter().position(|&end| end == 0).unwrap_or(ENTRIES);
    tally.telling += u64::from(telling(&ends[..records]));
    let mut one = |words, number, place, ends| {
        let checked = Checked { number, place };
        if let Err(difference) = hold(forest, words, checked, ends, seed) {
            let call = format!("{words} {}", hex::print(forest));
            tally.differences.push(format!("{difference}: {call}"));
        }
    };
    one(WORK_WORDS + (seed % 3) as usize, number, place, &ends);
    if seed % 8 == 0 {
        one(WORK_WORDS - 1, 1, 0, &[0; ENTRIES]);
        tally.too_few += 1;
    }
}

/// A check that has to give that answer and those ends; or what it did otherwise.
fn hold(
    forest: &[u8],
    words: usize,
    expected: Checked,
    expected_ends: &[u16; ENTRIES],
    seed: u64,
) -> Result<(), String> {
    // Whatever stood there before must not matter, and what is not cleared must still stand there. No end is as high.
    let word = |i: usize| {
        (seed as u32)
            .wrapping_mul(2_654_435_761)
            .wrapping_add(i as u32)
            | 1
    };
    let mut work: Vec<u32> = (0..WORK_WORDS + SPARE).map(word).collect();
    let mut ends = [0; ENTRIES].map(|_: u16| word(0) as u16 | 0x8000);
    let checked = check(forest, &mut work[..words], &mut ends);
    if checked != expected {
        return Err(format!("{checked:?} and not {expected:?}"));
    }
    if ends != *expected_ends {
        return Err(format!("{ends:?} and not {expected_ends:?}"));
    }
    let cleared = if expected.number == 1 { 0 } else { WORK_WORDS };
    if work[..cleared].iter().any(|&word| word != 0) {
        return Err("a work word was not cleared".to_string());
    }
    if (cleared..work.len()).any(|i| work[i] != word(i)) {
        return Err("a work word past those that are used was changed".to_string());
    }
    Ok(())
}

#[cfg(test)]
mod tests {
    use super::*;
    use cse_reference::generate::{Family, Kind};

    /// What is asked for, of a run with four accepted forests and one refused.
    fn prints(least: u64, telling: u64, differences: &[&str]) -> bool {
        let tally = Tally {
            compared: [(0, 4), (9, 1)].into(),
            telling: 3,
            differences: differences.iter().map(|line| line.to_string()).collect(),
            ..Tally::default()
        };
        let asked = Asked {
            count: 5,
            seed: 1,
            least,
            telling,
        };
        tally.print("ends", asked)
    }

    #[test]
    fn fewer_than_are_asked_for_is_a_failure() {
        assert!(prints(5, 3, &[]));
        assert!(!prints(6, 3, &[]));
        assert!(!prints(5, 4, &[]));
    }

    #[test]
    fn a_difference_is_a_failure() {
        assert!(!prints(5, 3, &["one"]));
    }

    /// p(z,z), with ends that it has not, and with those that it has.
    #[test]
    fn another_answer_is_a_difference() {
        let forest = cse_reference::notation::parse("p(z,z)").unwrap().to_bytes();
        let accepted = Checked::default();
        let mut ends = entries(&forest);
        assert_eq!(hold(&forest, WORK_WORDS, accepted, &ends, 5), Ok(()));
        let refused = Checked {
            number: 1,
            place: 0,
        };
        assert!(hold(&forest, WORK_WORDS, refused, &ends, 5).is_err());
        assert!(hold(&forest, WORK_WORDS - 1, accepted, &ends, 5).is_err());
        ends[ENTRIES - 1] = 3;
        assert!(hold(&forest, WORK_WORDS, accepted, &ends, 5).is_err());
    }

    #[test]
    fn forests_are_compared_and_tell() {
        let asked = |telling| Asked {
            count: 32,
            seed: 1,
            least: 32,
            telling,
        };
        let medium = Source::Family(Family::from(Kind::Medium));
        assert!(compared(medium, asked(16)));
        for refused in [Source::Damaged, Source::TwoShapes] {
            assert!(compared(refused, asked(0)));
            assert!(!compared(refused, asked(1)));
        }
    }
}
