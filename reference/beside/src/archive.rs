//! Forests through the program archive_lister, its text beside that of the reading.

use cse_reference::archive::archive_lister;
use cse_reference::hex;
use cse_reference::oracle::NoAnswer;

use crate::asked::Asked;
use crate::compare::print_differences;
use crate::halves::in_two;
use crate::program::difference;
use crate::source::Source;

/// What came of a run, in forests.
#[derive(Default)]
struct Tally {
    /// Those whose texts were compared.
    compared: u64,
    /// Of these, those whose text says `mixed`.
    mixed: u64,
    /// And those with another refusal.
    refused: u64,
    /// Those that were not compared.
    skipped: u64,
    differences: Vec<String>,
}

impl Tally {
    fn note(&mut self, text: &str) {
        self.compared += 1;
        self.mixed += u64::from(text.starts_with("mixed "));
        self.refused += u64::from(text.starts_with("refused "));
    }

    fn join(&mut self, other: Tally) {
        self.compared += other.compared;
        self.mixed += other.mixed;
        self.refused += other.refused;
        self.skipped += other.skipped;
        self.differences.extend(other.differences);
    }

    /// Prints it all; whether nothing differed, and as many as is asked for were compared and say `mixed`.
    fn print(&self, name: &str, asked: Asked) -> bool {
        let Asked { least, telling, .. } = asked;
        print_differences(name, &self.differences);
        println!(
            "{name}: {} archive texts compared, at least {least} asked for, {} passed over; {} that say mixed, at least {telling} asked for, \
             {} with another refusal; {} differences",
            self.compared,
            self.skipped,
            self.mixed,
            self.refused,
            self.differences.len()
        );
        self.differences.is_empty() && self.compared >= least && self.mixed >= telling
    }
}

/// Forests of a source. Whether no text differed, and as many as is asked for were compared and say `mixed`.
pub fn listed(source: Source, asked: Asked) -> bool {
    let [mut tally, other] = in_two(asked, |seed, tally: &mut Tally| {
        compare(&source.forest(seed), tally);
    });
    tally.join(other);
    tally.print(&source.name(), asked)
}

fn compare(forest: &[u8], tally: &mut Tally) {
    match archive_lister(forest) {
        Ok(text) => {
            tally.note(&text);
            let differences = difference("archive_lister", forest, &text);
            tally.differences.extend(differences);
        }
        Err(NoAnswer::Skipped(_)) => tally.skipped += 1,
        Err(other) => {
            let difference = format!("{other}: {}", hex::print(forest));
            tally.differences.push(difference);
        }
    }
}

#[cfg(test)]
mod tests {
    use super::*;

    /// What is asked for, of a run with four texts.
    fn prints(least: u64, telling: u64, differences: &[&str]) -> bool {
        let mut tally = Tally {
            differences: differences.iter().map(|line| line.to_string()).collect(),
            ..Tally::default()
        };
        for text in [
            "mixed 9A\n",
            "refused 7 at 64\n",
            "symbols 1\n",
            "mixed 01\n",
        ] {
            tally.note(text);
        }
        let asked = Asked {
            count: 4,
            seed: 1,
            least,
            telling,
        };
        assert_eq!(tally.refused, 1);
        tally.print("archive", asked)
    }

    #[test]
    fn fewer_than_are_asked_for_is_a_failure() {
        assert!(prints(4, 2, &[]));
        assert!(!prints(5, 2, &[]));
        assert!(!prints(4, 3, &[]));
    }

    #[test]
    fn a_difference_is_a_failure() {
        assert!(!prints(4, 2, &["one"]));
    }
}
