//! The binary: what it prints, and how it refuses a wrong command line or input.

use std::io::Write;
use std::process::{Command, Stdio};

use cse_reference::check::accept;
use cse_reference::damage::NUMBERS;
use cse_reference::ends::{ends, telling};
use cse_reference::evaluate::{is_simple, value, Numbered};
use cse_reference::hex;
use cse_reference::template::{fill, line, Filling};

/// Runs the binary: its exit status, standard output and standard error.
fn run(arguments: &[&str], input: &[u8]) -> (i32, String, String) {
    let mut child = Command::new(env!("CARGO_BIN_EXE_cse-reference"))
        .args(arguments)
        .stdin(Stdio::piped())
        .stdout(Stdio::piped())
        .stderr(Stdio::piped())
        .spawn()
        .unwrap();
    // A command that refuses its arguments does not read; the pipe may be closed.
    let _ = child.stdin.take().unwrap().write_all(input);
    let output = child.wait_with_output().unwrap();
    (
        output.status.code().unwrap(),
        String::from_utf8(output.stdout).unwrap(),
        String::from_utf8(output.stderr).unwrap(),
    )
}

fn prints(arguments: &[&str], input: &str) -> String {
    let (status, out, err) = run(arguments, input.as_bytes());
    assert_eq!((status, err.as_str()), (0, ""), "{arguments:?}");
    out
}

/// The command must fail, and say these words.
fn fails(arguments: &[&str], input: &[u8], status: i32, words: &str) -> String {
    let (given, out, err) = run(arguments, input);
    assert_eq!(given, status, "{arguments:?}: {err}");
    assert!(
        err.contains(words),
        "{arguments:?}: {err:?} has no {words:?}"
    );
    out
}

/// HEIGHT alone.
const HEIGHT: &str = "010001000800050002a3000000";

#[test]
fn answer() {
    let input = format!("{0}\n-\n{0}\n", HEIGHT);
    let line = format!("0\t0\t13\t1\t1\t{}\n", HEIGHT);
    assert_eq!(
        prints(&["answer"], &input),
        format!("{line}2\t0\t0\t0\t0\t-\n{line}")
    );
    let refused = |number| format!("{number}\t0\t0\t0\t0\t-\n");
    assert_eq!(prints(&["answer", "--out", "13"], HEIGHT), line);
    assert_eq!(prints(&["answer", "--out", "12"], HEIGHT), refused(13));
    assert_eq!(prints(&["answer", "--words", "16383"], HEIGHT), refused(1));
    assert_eq!(
        prints(&["answer", "--words", "16384", "--out", "0"], HEIGHT),
        refused(13)
    );
    assert_eq!(prints(&["answer"], &HEIGHT.to_uppercase()), line);
    assert_eq!(prints(&["answer"], ""), "");
}

#[test]
fn list_and_notation() {
    let forests = prints(&["from-notation"], "p(z,z)\n3\n");
    assert_eq!(
        prints(&["list"], &forests),
        "symbols 2\n0 O FE 0 2 y\n1 O 9A 0 0 n\n1 -31\n0 hoisted in scope 0\n1 used at most once\nrefused 10 at 0\n"
    );
    let text = "n(z) | if(z, n(z), n(z))\n";
    let forest = prints(&["from-notation"], text);
    let tree = prints(&["answer"], &forest);
    let tree = tree.trim_end().rsplit('\t').next().unwrap();
    let same = prints(&["from-notation"], "{1=z; 2=n(1); if(1,2,2)}");
    assert_eq!(tree, same.trim_end());
    let back = prints(&["to-notation"], &forest);
    assert_eq!(prints(&["from-notation"], &back), forest);
}

#[test]
fn what_is_too_much_work_is_skipped() {
    let nested = format!("{}z{}\n", "and(h,".repeat(15), ")".repeat(15));
    let forest = prints(&["from-notation"], &nested);
    assert_eq!(prints(&["answer"], &forest), "skipped\n");
    assert_eq!(prints(&["list"], &forest), "skipped\n");
}

#[test]
fn generated_forests_have_answers() {
    for kind in ["small", "medium", "marked-small", "marked-medium"] {
        let forests = prints(&["generate", kind, "20", "--seed", "3"], "");
        assert_eq!(forests.lines().count(), 20);
        let answers = prints(&["answer"], &forests);
        assert_eq!(answers.lines().count(), 20);
        assert_eq!(
            forests,
            prints(&["generate", kind, "20", "--seed", "3"], "")
        );
        assert_ne!(
            forests,
            prints(&["generate", kind, "20", "--seed", "4"], "")
        );
    }
}

#[test]
fn damaged_forests_have_their_refusals() {
    for line in prints(&["damage", "60"], "").lines() {
        let fields: Vec<&str> = line.split('\t').collect();
        let [forest, number, place] = fields[..] else {
            panic!("{line}");
        };
        let expected = format!("{number}\t{place}\t0\t0\t0\t-\n");
        assert_eq!(prints(&["answer"], forest), expected);
    }
}

#[test]
fn rows_are_calls_with_their_answers() {
    let mut numbers = std::collections::BTreeSet::new();
    for line in prints(&["rows", "400", "--seed", "9"], "").lines() {
        let fields: Vec<&str> = line.split('\t').collect();
        assert_eq!(fields.len(), 9, "{line}");
        numbers.insert(fields[3].parse::<u32>().unwrap());
    }
    // Refusals of the checks are common; those at the limits are among 20 rows.
    assert!(numbers.is_superset(&NUMBERS.into()), "{numbers:?}");
    assert!(
        numbers.iter().any(|number| (11..=14).contains(number)),
        "{numbers:?}"
    );
    for line in prints(&["rows", "30", "--max-records", "6"], "").lines() {
        let fields: Vec<&str> = line.split('\t').collect();
        let given = prints(
            &["answer", "--out", fields[1], "--words", fields[2]],
            fields[0],
        );
        assert_eq!(given.trim_end(), fields[3..].join("\t"));
    }
}

#[test]
fn list_rows_are_forests_with_their_text() {
    for line in prints(&["list-rows", "30"], "").lines() {
        let (forest, text) = line.split_once('\t').unwrap();
        let text = hex::parse(text).unwrap();
        assert_eq!(prints(&["list"], forest).into_bytes(), text);
    }
}

#[test]
fn archive_says_mixed_where_16_is() {
    // tuple(a(z,z), b(z,z)): 9A as Two and as ByIndex.
    let mixed = "0100070020000500250005002a0005002f00050034000500390005003e0005001086020000\
                 049a02000002fe00000002fe000000189a02000002fe00000002fe000000";
    assert_eq!(prints(&["archive"], mixed), "mixed 9A\n");
    assert_eq!(prints(&["list"], mixed), "refused 16 at 4\n");
    assert_eq!(prints(&["check"], mixed), "refused 16 at 4\n");
    let input = format!("{HEIGHT}\n-\n");
    assert_eq!(prints(&["archive"], &input), prints(&["list"], &input));
}

#[test]
fn archive_rows_are_forests_with_their_text() {
    let (mut mixed, mut refused, mut listed) = (0, 0, 0);
    for row in prints(&["archive-rows", "200", "--max-records", "24"], "").lines() {
        let fields: Vec<&str> = row.split('\t').collect();
        let ["archive", forest, text] = fields[..] else {
            panic!("{row}");
        };
        let text = String::from_utf8(hex::parse(text).unwrap()).unwrap();
        assert_eq!(prints(&["archive"], forest), text);
        let listed_text = prints(&["list"], forest);
        match text.strip_prefix("mixed ") {
            Some(opcode) => {
                assert!(listed_text.starts_with("refused 16 at "), "{row}");
                assert_eq!((opcode.len(), opcode.to_uppercase().as_str()), (3, opcode));
                mixed += 1;
            }
            None => {
                assert_eq!(listed_text, text);
                refused += u32::from(text.starts_with("refused "));
                listed += u32::from(text.starts_with("symbols "));
            }
        }
    }
    assert_eq!(listed, 50);
    assert!(mixed >= 100 && refused >= 20, "{mixed} {refused}");
}

/// The values of a row, by aux.
fn values(text: &str) -> Filling {
    let values = text.split(',').map(|value| {
        let (aux, literal) = value.split_once('=').unwrap();
        (aux.parse().unwrap(), hex::parse(literal).unwrap())
    });
    values.collect()
}

#[test]
fn template_rows_are_lines_and_fillings() {
    let (mut templates, mut two_values, mut refused, mut fillings) = (0, 0, 0, 0);
    for row in prints(&["template-rows", "220", "--max-records", "24"], "").lines() {
        let fields: Vec<&str> = row.split('\t').collect();
        let forest = hex::parse(fields[1]).unwrap();
        match fields[..] {
            ["template", _, text] => {
                let expected = line(&forest).unwrap();
                assert_eq!(hex::print(expected.as_bytes()), text, "{row}");
                templates += u32::from(expected.starts_with("template: "));
                two_values += u32::from(expected.starts_with("two values "));
                refused += u32::from(expected.starts_with("refused "));
            }
            ["fill", _, given, filled] => {
                let given = values(given);
                assert_eq!(hex::print(&fill(&forest, &given)), filled, "{row}");
                let short = |value: &Vec<u8>| (1..=40).contains(&value.len());
                assert!(!given.is_empty() && given.values().all(short), "{row}");
                assert!(accept(&forest).unwrap().size() <= 24, "{row}");
                fillings += 1;
            }
            _ => panic!("{row}"),
        }
    }
    assert_eq!((templates, two_values), (100, 100));
    assert_eq!((refused, fillings), (20, 220));
}

#[test]
fn a_parameter_alone_where_no_template_is_small_enough() {
    // x:1 of document 01.
    let parameter = "0100010008000700000000000d0701";
    let rows = prints(&["template-rows", "1", "--max-records", "0"], "");
    let forests = rows.lines().map(|row| row.split('\t').nth(1).unwrap());
    assert!(forests.eq([parameter, parameter]), "{rows}");
}

#[test]
fn value_rows_are_values_of_root_and_written_tree() {
    let (mut kept, mut gained, mut neither) = (0, 0, 0);
    for row in prints(&["value-rows", "200", "--max-records", "24"], "").lines() {
        let fields: Vec<&str> = row.split('\t').collect();
        let ["value", forest, m, root, written] = fields[..] else {
            panic!("{row}");
        };
        let of = |tree: &str| {
            let forest = accept(&hex::parse(tree).unwrap()).unwrap();
            assert!(is_simple(&forest), "{row}");
            let value = value(&Numbered(m.parse().unwrap()), &forest.trees[0]);
            value.map_or("-".to_string(), |value| value.to_string())
        };
        assert!(accept(&hex::parse(forest).unwrap()).unwrap().size() <= 24);
        let answer = prints(&["answer"], forest);
        let tree = answer.trim_end().rsplit('\t').next().unwrap();
        assert_eq!((of(forest).as_str(), of(tree).as_str()), (root, written));
        match (root, written) {
            ("-", "-") => neither += 1,
            ("-", _) => gained += 1,
            _ => {
                assert_eq!(root, written, "{row}");
                kept += 1;
            }
        }
    }
    assert!(kept > 80 && gained > 45 && neither > 30);
    // HEIGHT alone where no forest is small enough, with 491 mod 7.
    let row = format!("value\t{HEIGHT}\t0\t1\t1\n");
    assert_eq!(prints(&["value-rows", "1", "--max-records", "0"], ""), row);
}

#[test]
fn check_says_where_subtrees_end() {
    let forests = prints(&["from-notation"], "p(z,z)\nn(z) | z\np(z,3)\n");
    assert_eq!(
        prints(&["check"], &forests),
        "accepted 3 2 3\naccepted 2 2 3\nrefused 10 at 2\n"
    );
    let rows = prints(&["check-rows", "60"], "");
    let forests = rows.lines().map(|row| row.split('\t').next().unwrap());
    let verdicts = rows.lines().map(|row| row.split('\t').nth(1).unwrap());
    let forests: Vec<&str> = forests.collect();
    let given = prints(&["check"], &forests.join("\n"));
    assert!(verdicts.eq(given.lines()), "{rows}");
}

#[test]
fn ends_rows_are_forests_with_their_ends() {
    let (mut refused, mut several, mut with_marks, mut told) = (0, 0, 0, 0);
    for row in prints(&["ends-rows", "200", "--max-records", "24"], "").lines() {
        let fields: Vec<&str> = row.split('\t').collect();
        let ["ends", forest, given] = fields[..] else {
            panic!("{row}");
        };
        let bytes = hex::parse(forest).unwrap();
        let Ok(mut accepted) = accept(&bytes) else {
            assert_eq!(given, "-", "{row}");
            refused += 1;
            continue;
        };
        let given: Vec<u16> = given.split(',').map(|end| end.parse().unwrap()).collect();
        assert_eq!(given, ends(&accepted), "{row}");
        assert!(given.len() <= 24, "{row}");
        several += u32::from(accepted.trees.len() > 1);
        told += u32::from(telling(&given));
        with_marks += u32::from(accepted.constants_mut().iter().any(|c| c.aux >= 7));
    }
    assert_eq!(refused, 50);
    assert!(
        several >= 50 && with_marks >= 20 && told >= 100,
        "{several} {with_marks} {told}"
    );
    // Where none is small enough, whatever is asked of its trees.
    let row = format!("ends\t{HEIGHT}\t1\n");
    assert_eq!(
        prints(&["ends-rows", "2", "--max-records", "0"], ""),
        row.repeat(2)
    );
}

/// Every third forest to accept is from a marked kind, which leaves some without marks.
#[test]
fn rows_have_marks() {
    for command in ["rows", "list-rows", "check-rows"] {
        let lines = prints(&[command, "300"], "");
        let forests = lines.lines().filter_map(|line| {
            let forest = line.split('\t').next().unwrap();
            accept(&hex::parse(forest).unwrap()).ok()
        });
        let (mut accepted, mut with) = (0, 0);
        for mut forest in forests {
            accepted += 1;
            let constants = forest.constants_mut();
            with += u32::from(constants.iter().any(|record| record.aux >= 7));
        }
        let share = 100 * with / accepted;
        assert!((12..=35).contains(&share), "{command}: {share} of 100");
    }
}

#[test]
fn wrong_command_lines() {
    let cases: [(&[&str], &str); 21] = [
        (&[], "a command is wanted"),
        (&["answers"], "no command is called answers"),
        (&["answer", "--length", "3"], "no option is called --length"),
        (&["answer", "--out"], "--out wants a number"),
        (&["answer", "--out", "x"], "--out is to be a number"),
        (&["answer", "--out", "-1"], "--out is to be a number"),
        (
            &["answer", "--out", "1", "--out", "1"],
            "--out stands twice",
        ),
        (&["answer", "1"], "answer: wants no operand"),
        (&["list", "--out", "1"], "no option is called --out"),
        (&["generate", "small"], "wants KIND COUNT"),
        (
            &["generate", "tiny", "1"],
            "no kind is called tiny, only small",
        ),
        (
            &["generate", "marked-tiny", "1"],
            "no kind is called marked-tiny, only small",
        ),
        (
            &["generate", "marked", "1"],
            "one-shape, and these with marked- before them",
        ),
        (&["generate", "small", "many"], "COUNT is to be a number"),
        (&["damage"], "damage: wants COUNT"),
        (&["damage", "1", "2"], "damage: wants COUNT"),
        (&["rows", "99999999999999999999"], "COUNT is to be a number"),
        (
            &["list-rows", "1", "--max-records", "1"],
            "no option is called --max-records",
        ),
        (&["check", "1"], "check: wants no operand"),
        (
            &["ends-rows", "1", "--out", "1"],
            "no option is called --out",
        ),
        (&["to-notation", "x"], "to-notation: wants no operand"),
    ];
    for (arguments, words) in cases {
        assert_eq!(fails(arguments, b"", 2, words), "");
        fails(arguments, b"", 2, "usage: ");
    }
}

#[test]
fn wrong_lines() {
    let good = format!("{}\n", HEIGHT);
    for command in ["answer", "list", "archive", "check", "to-notation"] {
        let before = prints(&[command], &good);
        let cases: [(&[u8], &str); 6] = [
            (b"0", "line 2: an odd number of hex digits, 1"),
            (b"01000", "line 2: an odd number of hex digits, 5"),
            (b"01g0", "line 2: 'g' in column 3 is no hex digit"),
            (b"01 00", "line 2: ' ' in column 3 is no hex digit"),
            (b"\n-", "line 2: nothing here"),
            (b"\xff\xfe", "line 2: "),
        ];
        for (line, words) in cases {
            let input = [good.as_bytes(), line, b"\n"].concat();
            assert_eq!(fails(&[command], &input, 1, words), before);
        }
    }
    fails(&["to-notation"], b"-", 1, "line 1: refused 2 at 0");
    let unparsed = "01000100080005000100000000";
    fails(
        &["to-notation"],
        unparsed.as_bytes(),
        1,
        "line 1: a record has no notation",
    );
    fails(&["from-notation"], b"z\np(z\n", 1, "line 2: ");
}

#[test]
fn one_forest_as_bytes() {
    // An opcode would be no text, and a constant has none.
    let bytes = prints(&["forest", "k"], "");
    assert_eq!(prints(&["notation"], &bytes), "k\n");
    fails(&["forest", "p(z"], b"", 2, "");
    fails(&["forest"], b"", 2, "NOTATION");
    fails(&["notation"], b"", 1, "refused 2 at 0");
}
