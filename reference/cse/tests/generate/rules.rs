//! Forests of rules have lines of each rule; of all kinds the rules agree with the symbols' lines.

use crate::*;

use cse_reference::lister::{listing, Listing};
use cse_reference::rules::Rule;

/// The listings of a family; forests that are refused are passed over.
fn listings(family: Family, seeds: u64) -> impl Iterator<Item = (u64, Listing)> {
    let each = (0..seeds).filter_map(move |seed| {
        let listing = listing(&family.forest(seed).to_bytes()).ok()?;
        Some((seed, listing))
    });
    each.filter(|(_, listing)| !listing.text.starts_with("refused"))
}

#[test]
fn they_have_each_rule() {
    for marked in [false, true] {
        let kind = Kind::Rules;
        let mut counts = [0; 7];
        let (mut inner, mut several, mut forests) = (0, 0, 0);
        for (_, listing) in listings(Family { kind, marked }, SEEDS) {
            for (count, lines) in counts.iter_mut().zip(listing.rules.counts) {
                *count += u64::from(lines > 0);
            }
            let lines = &listing.rules.lines;
            let hoisted = lines.matches("hoisted").count();
            inner += u64::from(lines.matches("hoisted in scope 0\n").count() < hoisted);
            several += u64::from(listing.rules.several > 0);
            forests += 1;
        }
        assert!(forests > SEEDS - 10, "{marked}: {forests}");
        for (rule, count) in Rule::WORDS.iter().zip(counts) {
            assert!(count > 80, "{marked} {rule}: {counts:?}");
        }
        assert!(inner > 100, "{marked}: {inner}");
        assert!(several > 10, "{marked}: {several}");
    }
}

/// The number in front of a line, and what follows.
fn parted(line: &str) -> (u32, &str) {
    let (number, rest) = line.split_once(' ').unwrap();
    (number.parse().unwrap(), rest)
}

/// What the rule of a symbol, or of none, may be by its line: tag, opcode, scope, uses and whether the gate lets it.
fn assert_fits(line: &str, rule: Option<&str>, context: &str) {
    let fields: Vec<&str> = line.split(' ').collect();
    let [tag, opcode, scope, uses, gate] = fields[..] else {
        panic!("{context}: {line}");
    };
    let expected = match rule {
        None => uses == "0" && gate == "n",
        Some("argument") => tag == "A",
        Some("used at most once") => tag != "A" && ["0", "1"].contains(&uses),
        Some("context property") => gate == "n" && ["A3", "A4", "A5", "A7"].contains(&opcode),
        Some("GLOBAL") => gate == "n" && opcode == "DD",
        Some("scalar constant") => gate == "n" && tag == "C",
        Some("no definition written") => gate == "y" && tag != "A",
        Some(rule) => gate == "y" && tag != "A" && rule == format!("hoisted in scope {scope}"),
    };
    assert!(expected, "{context}: {line}: {rule:?}");
}

/// What is hoisted is so in its own scope, by the line of the symbol; and all symbols that the gate lets have one of the last
/// two rules.
#[test]
fn rules_agree_with_the_symbols() {
    for family in unmarked().chain(marked()) {
        for (seed, listing) in listings(family, 60) {
            let context = format!("{} {seed}", family.name());
            assert_eq!(listing.rules.elsewhere, 0, "{context}");
            let mut rules = listing.rules.lines.lines().map(parted).peekable();
            let (_, symbols) = parted_heading(&listing.text);
            for line in listing.text.lines().skip(1).take(symbols) {
                let (symbol, line) = parted(line);
                let own = rules.next_if(|(number, _)| *number == symbol);
                assert_fits(line, own.map(|(_, rule)| rule), &context);
            }
            assert_eq!(rules.next(), None, "{context}");
        }
    }
}

/// The first line, `symbols N`.
fn parted_heading(text: &str) -> (&str, usize) {
    let (word, count) = text.lines().next().unwrap().split_once(' ').unwrap();
    (word, count.parse().unwrap())
}
