//! Forests through the program template, its line beside that of the reading.

use cse_reference::generate::accepted;
use cse_reference::hex;
use cse_reference::oracle::NoAnswer;
use cse_reference::template::line;

use crate::asked::Asked;
use crate::compare::print_differences;
use crate::halves::in_two;
use crate::program::difference;
use crate::source::Source;

/// What came of a run, in forests.
#[derive(Default)]
struct Tally {
    /// Those that are templates, by the line.
    templates: u64,
    /// Those with two values of a mark.
    two_values: u64,
    refused: u64,
    /// Those that were not compared.
    skipped: u64,
    differences: Vec<String>,
}

impl Tally {
    fn join(&mut self, other: Tally) {
        self.templates += other.templates;
        self.two_values += other.two_values;
        self.refused += other.refused;
        self.skipped += other.skipped;
        self.differences.extend(other.differences);
    }

    /// Prints it all; whether nothing differed, and as many as is asked for were compared and of either line.
    fn print(&self, name: &str, asked: Asked) -> bool {
        let Asked { least, telling, .. } = asked;
        let compared = self.templates + self.two_values + self.refused;
        print_differences(name, &self.differences);
        println!(
            "{name}: {compared} lines compared, at least {least} asked for, {} passed over; {} templates and {} with two values of a mark, at \
             least {telling} of each asked for; {} refusals; {} differences",
            self.skipped,
            self.templates,
            self.two_values,
            self.refused,
            self.differences.len()
        );
        self.differences.is_empty()
            && compared >= least
            && self.templates.min(self.two_values) >= telling
    }
}

/// Forests of a source. Whether no line differed, and as many as is asked for were compared and of either line.
pub fn compared(source: Source, asked: Asked) -> bool {
    let [mut tally, other] = in_two(asked, |seed, tally: &mut Tally| {
        compare(&forest(source, seed), tally);
    });
    tally.join(other);
    tally.print(&source.name(), asked)
}

/// In turn templates and forests with two values of a mark, with some among them that have no marks.
fn forest(source: Source, seed: u64) -> Vec<u8> {
    let Some(family) = source.family() else {
        return source.forest(seed);
    };
    let forest = match seed % 9 {
        0 => accepted(seed, family.kind),
        1 | 3 | 5 | 7 => family.template(seed),
        _ => family.two_values(seed),
    };
    forest.to_bytes()
}

fn compare(forest: &[u8], tally: &mut Tally) {
    let expected = match line(forest) {
        Ok(line) => line,
        Err(NoAnswer::Skipped(_)) => {
            tally.skipped += 1;
            return;
        }
        Err(other) => {
            let difference = format!("{other}: {}", hex::print(forest));
            return tally.differences.push(difference);
        }
    };
    let count = match expected.split(' ').next() {
        Some("template:") => &mut tally.templates,
        Some("two") => &mut tally.two_values,
        _ => &mut tally.refused,
    };
    *count += 1;
    tally
        .differences
        .extend(difference("template", forest, &expected));
}

#[cfg(test)]
mod tests {
    use super::*;
    use cse_reference::generate::Kind;

    /// What is asked for, of a run with so many of each line.
    fn prints(least: u64, telling: u64, differences: &[&str]) -> bool {
        let tally = Tally {
            templates: 4,
            two_values: 3,
            refused: 2,
            differences: differences.iter().map(|line| line.to_string()).collect(),
            ..Tally::default()
        };
        let asked = Asked {
            count: 9,
            seed: 1,
            least,
            telling,
        };
        tally.print("lines", asked)
    }

    #[test]
    fn fewer_than_are_asked_for_is_a_failure() {
        assert!(prints(9, 3, &[]));
        assert!(!prints(10, 3, &[]));
        assert!(!prints(9, 4, &[]));
    }

    #[test]
    fn a_difference_is_a_failure() {
        assert!(!prints(9, 3, &["one"]));
    }

    #[test]
    fn forests_are_of_every_line() {
        let small = Source::Family(Kind::Small.into());
        let lines: Vec<String> = (0..90)
            .map(|seed| line(&forest(small, seed)).expect("it has an answer"))
            .collect();
        let of = |start: &str| lines.iter().filter(|line| line.starts_with(start)).count();
        assert_eq!((of("template: "), of("two values of mark ")), (50, 40));
        assert!(lines.iter().any(|line| line.ends_with(" 0 parameters\n")));
        for source in [Source::Damaged, Source::TwoShapes] {
            let refused = line(&forest(source, 1)).expect("it has an answer");
            assert!(refused.starts_with("refused "), "{refused}");
        }
    }
}
