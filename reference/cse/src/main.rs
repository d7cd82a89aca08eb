//! Commands over forests in hexadecimal digits, one a line; see `USAGE`.

use std::io::{self, BufRead, BufWriter, ErrorKind, Read, Write};
use std::process::ExitCode;

use cse_reference::archive::archive_lister;
use cse_reference::check::accept;
use cse_reference::damage::damaged;
use cse_reference::ends::ends;
use cse_reference::evaluate::Numbered;
use cse_reference::forest::Forest;
use cse_reference::generate::{Family, Kind};
use cse_reference::lister::lister;
use cse_reference::oracle::{answer, Answer, NoAnswer, MAX_OUTPUT, MIN_WORK_WORDS};
use cse_reference::template::Filling;
use cse_reference::{hex, notation, rows};

const USAGE: &str = "\
usage: cse-reference COMMAND
  answer [--out N] [--words N]     forests in: number, place, written length, symbols, readings, tree
  list                             forests in: the lister's text
  archive                          forests in: the archive lister's text
  check                            forests in: what checks 2 to 10 and 16 say, accepted and where subtrees end, or
                                   refused, number and place
  generate KIND COUNT [--seed S]   accepted forests
  damage COUNT [--seed S]          forests that are refused: forest, number, place
  rows COUNT [--seed S] [--max-records N]
                                   forest, output length, work words, and what answer gives
  list-rows COUNT [--seed S]       forest, the lister's text in hex
  archive-rows COUNT [--seed S] [--max-records N]
                                   archive, forest, the archive lister's text in hex
  template-rows COUNT [--seed S] [--max-records N]
                                   template, forest, the template's line in hex; and
                                   fill, forest, its values as aux=hex,aux=hex, the filled forest
  value-rows COUNT [--seed S] [--max-records N]
                                   value, forest, a meaning's number, the values under it of the root and of the
                                   written tree, - for none
  ends-rows COUNT [--seed S] [--max-records N]
                                   ends, forest, where its subtrees end, with commas, - where it is refused
  check-rows COUNT [--seed S]      forest, and what check gives
  from-notation                    notation in: forests
  to-notation                      forests in: notation
  forest NOTATION                  the forest's bytes
  notation                         a forest's bytes in: notation
A KIND may have marked- before it: its constants then have marks.
Elsewhere standard input has one forest a line, in hex, - for no bytes. Fields are parted by tabs. A forest that
is too much work for the original gives the line: skipped";

/// What ends a command early.
enum Failure {
    /// The command line is wrong.
    Usage(String),
    /// A line of the input is wrong or has no answer; counted from 1.
    Line(usize, String),
    /// The row of this seed could not be made.
    Row(u64, NoAnswer),
    Io(io::Error),
}

impl From<io::Error> for Failure {
    fn from(error: io::Error) -> Self {
        Failure::Io(error)
    }
}

fn main() -> ExitCode {
    let arguments: Vec<String> = std::env::args().skip(1).collect();
    let mut out = BufWriter::new(io::stdout().lock());
    let done = run(&arguments, &mut out);
    // What was answered before a wrong line still counts.
    let flushed = out.flush().map_err(Failure::Io);
    let (message, status) = match done.and(flushed) {
        Ok(()) => return ExitCode::SUCCESS,
        // The reader has seen enough.
        Err(Failure::Io(error)) if error.kind() == ErrorKind::BrokenPipe => {
            return ExitCode::SUCCESS
        }
        Err(Failure::Usage(message)) => (format!("{message}\n{USAGE}"), 2),
        Err(Failure::Line(line, message)) => (format!("line {line}: {message}"), 1),
        Err(Failure::Row(seed, no_answer)) => (format!("seed {seed}: {no_answer}"), 1),
        Err(Failure::Io(error)) => (error.to_string(), 1),
    };
    eprintln!("cse-reference: {message}");
    ExitCode::from(status)
}

fn run(arguments: &[String], out: &mut impl Write) -> Result<(), Failure> {
    let Some((command, rest)) = arguments.split_first() else {
        return Err(Failure::Usage("a command is wanted".to_string()));
    };
    let parsed = |operands: &[&str], options: &[&str]| {
        Arguments::parse(rest, operands, options)
            .map_err(|message| Failure::Usage(format!("{command}: {message}")))
    };
    match command.as_str() {
        "answer" => {
            let arguments = parsed(&[], &["--out", "--words"])?;
            let length = arguments.option("--out", MAX_OUTPUT as u64) as usize;
            let words = arguments.option("--words", MIN_WORK_WORDS as u64) as usize;
            each_line(out, |line| {
                let given = answer(&hex::parse(line)?, length, words);
                or_skipped(given.map(|given| format!("{}\n", fields(&given))))
            })
        }
        "list" => {
            parsed(&[], &[])?;
            each_line(out, |line| {
                let text = lister(&hex::parse(line)?);
                or_skipped(text.map(|text| String::from_utf8(text).expect("the text is ASCII")))
            })
        }
        "archive" => {
            parsed(&[], &[])?;
            each_line(out, |line| or_skipped(archive_lister(&hex::parse(line)?)))
        }
        "check" => {
            parsed(&[], &[])?;
            each_line(out, |line| Ok(format!("{}\n", verdict(&hex::parse(line)?))))
        }
        "generate" => {
            let arguments = parsed(&["KIND", "COUNT"], &["--seed"])?;
            let family = family(&arguments.operands[0])?;
            for seed in arguments.seeds(1)? {
                writeln!(out, "{}", hex::print(&family.forest(seed).to_bytes()))?;
            }
            Ok(())
        }
        "damage" => {
            let arguments = parsed(&["COUNT"], &["--seed"])?;
            for seed in arguments.seeds(0)? {
                let case = damaged(seed);
                let forest = hex::print(&case.bytes);
                writeln!(out, "{forest}\t{}\t{}", case.number, case.place)?;
            }
            Ok(())
        }
        "rows" => {
            let arguments = parsed(&["COUNT"], &["--seed", "--max-records"])?;
            let most = arguments.option("--max-records", u64::MAX);
            for seed in arguments.seeds(0)? {
                let row = rows::row(seed, most).map_err(|why| Failure::Row(seed, why))?;
                let forest = hex::print(&row.forest);
                let given = fields(&row.answer);
                writeln!(
                    out,
                    "{forest}\t{}\t{}\t{given}",
                    row.out_len, row.work_words
                )?;
            }
            Ok(())
        }
        "list-rows" => {
            let arguments = parsed(&["COUNT"], &["--seed"])?;
            for seed in arguments.seeds(0)? {
                let (forest, text) = rows::list_row(seed).map_err(|why| Failure::Row(seed, why))?;
                writeln!(out, "{}\t{}", hex::print(&forest), hex::print(&text))?;
            }
            Ok(())
        }
        "archive-rows" => {
            let arguments = parsed(&["COUNT"], &["--seed", "--max-records"])?;
            let most = arguments.option("--max-records", u64::MAX);
            for seed in arguments.seeds(0)? {
                let row = rows::archive_row(seed, most);
                let (forest, text) = row.map_err(|why| Failure::Row(seed, why))?;
                let (forest, text) = (hex::print(&forest), hex::print(text.as_bytes()));
                writeln!(out, "archive\t{forest}\t{text}")?;
            }
            Ok(())
        }
        "template-rows" => {
            let arguments = parsed(&["COUNT"], &["--seed", "--max-records"])?;
            let most = arguments.option("--max-records", u64::MAX);
            for seed in arguments.seeds(0)? {
                let row = rows::template_row(seed, most);
                let (forest, line) = row.map_err(|why| Failure::Row(seed, why))?;
                let (forest, line) = (hex::print(&forest), hex::print(line.as_bytes()));
                writeln!(out, "template\t{forest}\t{line}")?;
                let row = rows::fill_row(seed, most);
                let (template, filled) = (hex::print(&row.template), hex::print(&row.filled));
                writeln!(out, "fill\t{template}\t{}\t{filled}", values(&row.values))?;
            }
            Ok(())
        }
        "value-rows" => {
            let arguments = parsed(&["COUNT"], &["--seed", "--max-records"])?;
            let most = arguments.option("--max-records", u64::MAX);
            for seed in arguments.seeds(0)? {
                let row = rows::value_row(seed, most).map_err(|why| Failure::Row(seed, why))?;
                let (forest, Numbered(m)) = (hex::print(&row.forest), row.meaning);
                let [root, written] = [row.root, row.written].map(or_none);
                writeln!(out, "value\t{forest}\t{m}\t{root}\t{written}")?;
            }
            Ok(())
        }
        "ends-rows" => {
            let arguments = parsed(&["COUNT"], &["--seed", "--max-records"])?;
            let most = arguments.option("--max-records", u64::MAX);
            for seed in arguments.seeds(0)? {
                let forest = rows::ends_row(seed, most);
                let given = accept(&forest).map_or("-".to_string(), |forest| joined(&forest, ","));
                writeln!(out, "ends\t{}\t{given}", hex::print(&forest))?;
            }
            Ok(())
        }
        "check-rows" => {
            let arguments = parsed(&["COUNT"], &["--seed"])?;
            for seed in arguments.seeds(0)? {
                let forest = rows::check_row(seed);
                writeln!(out, "{}\t{}", hex::print(&forest), verdict(&forest))?;
            }
            Ok(())
        }
        "from-notation" => {
            parsed(&[], &[])?;
            each_line(out, |line| {
                let forest = notation::parse(line)?;
                Ok(format!("{}\n", hex::print(&forest.to_bytes())))
            })
        }
        "to-notation" => {
            parsed(&[], &[])?;
            each_line(out, |line| notation_of(&hex::parse(line)?))
        }
        "forest" => {
            let arguments = parsed(&["NOTATION"], &[])?;
            let forest = notation::parse(&arguments.operands[0]).map_err(Failure::Usage)?;
            Ok(out.write_all(&forest.to_bytes())?)
        }
        "notation" => {
            parsed(&[], &[])?;
            let mut bytes = Vec::new();
            io::stdin().lock().read_to_end(&mut bytes)?;
            let text = notation_of(&bytes).map_err(|message| Failure::Line(1, message))?;
            Ok(out.write_all(text.as_bytes())?)
        }
        _ => Err(Failure::Usage(format!("no command is called {command}"))),
    }
}

/// Writes what `text` makes of each line of standard input.
fn each_line(
    out: &mut impl Write,
    text: impl Fn(&str) -> Result<String, String>,
) -> Result<(), Failure> {
    for (index, line) in io::stdin().lock().lines().enumerate() {
        let wrong = |message: String| Failure::Line(index + 1, message);
        let line = line.map_err(|error| wrong(error.to_string()))?;
        let text = text(&line).map_err(wrong)?;
        out.write_all(text.as_bytes())?;
    }
    Ok(())
}

/// The notation of a forest, as a line.
fn notation_of(bytes: &[u8]) -> Result<String, String> {
    let forest = accept(bytes)
        .map_err(|refusal| format!("refused {} at {}", refusal.number, refusal.place))?;
    let text = notation::print(&forest).ok_or("a record has no notation")?;
    Ok(format!("{text}\n"))
}

/// The fields of an answer, parted by tabs.
fn fields(answer: &Answer) -> String {
    format!(
        "{}\t{}\t{}\t{}\t{}\t{}",
        answer.number,
        answer.place,
        answer.written_length,
        answer.symbols,
        answer.readings,
        hex::print(&answer.tree)
    )
}

/// The values of a filling: `aux=hex`, parted by commas.
fn values(filling: &Filling) -> String {
    let values = filling.iter();
    let values = values.map(|(aux, literal)| format!("{aux}={}", hex::print(literal)));
    values.collect::<Vec<String>>().join(",")
}

/// What the checks of a forest say of it: a line of the program replay_check.
fn verdict(bytes: &[u8]) -> String {
    match accept(bytes) {
        Ok(forest) => format!("accepted {}", joined(&forest, " ")),
        Err(refusal) => format!("refused {} at {}", refusal.number, refusal.place),
    }
}

/// Where the subtrees of a forest end, with that between any two.
fn joined(forest: &Forest, between: &str) -> String {
    let ends: Vec<String> = ends(forest).iter().map(u16::to_string).collect();
    ends.join(between)
}

/// A value, `-` for none.
fn or_none(value: Option<u64>) -> String {
    value.map_or("-".to_string(), |value| value.to_string())
}

/// A skipped forest is an ordinary line; a count that differs is a fault.
fn or_skipped(text: Result<String, NoAnswer>) -> Result<String, String> {
    match text {
        Ok(text) => Ok(text),
        Err(NoAnswer::Skipped(_)) => Ok("skipped\n".to_string()),
        Err(fault) => Err(fault.to_string()),
    }
}

fn family(name: &str) -> Result<Family, Failure> {
    Family::parse(name).ok_or_else(|| {
        let names: Vec<&str> = Kind::ALL.iter().map(|kind| kind.name()).collect();
        Failure::Usage(format!(
            "no kind is called {name}, only {}, and these with marked- before them",
            names.join(", ")
        ))
    })
}

/// A command's operands and options, in any order.
struct Arguments {
    operands: Vec<String>,
    options: Vec<(String, u64)>,
}

impl Arguments {
    /// Exactly these operands, and at most these options, each with a number.
    fn parse(given: &[String], operands: &[&str], options: &[&str]) -> Result<Self, String> {
        let mut parsed = Arguments {
            operands: Vec::new(),
            options: Vec::new(),
        };
        let mut rest = given.iter();
        while let Some(argument) = rest.next() {
            if !argument.starts_with("--") {
                parsed.operands.push(argument.clone());
                continue;
            }
            if !options.contains(&argument.as_str()) {
                return Err(format!("no option is called {argument}"));
            }
            if parsed.options.iter().any(|(name, _)| name == argument) {
                return Err(format!("{argument} stands twice"));
            }
            let text = rest.next().ok_or(format!("{argument} wants a number"))?;
            parsed
                .options
                .push((argument.clone(), number(argument, text)?));
        }
        if parsed.operands.len() == operands.len() {
            return Ok(parsed);
        }
        let wanted = match operands {
            [] => "no operand".to_string(),
            names => names.join(" "),
        };
        Err(format!(
            "wants {wanted}, not {:?}",
            parsed.operands.join(" ")
        ))
    }

    fn option(&self, name: &str, default: u64) -> u64 {
        let found = self.options.iter().find(|(given, _)| given == name);
        found.map_or(default, |(_, value)| *value)
    }

    /// As many seeds as the operand at `count` says, from `--seed` on.
    fn seeds(&self, count: usize) -> Result<impl Iterator<Item = u64>, Failure> {
        let count = number("COUNT", &self.operands[count]).map_err(Failure::Usage)?;
        let first = self.option("--seed", 1);
        Ok((0..count).map(move |index| first.wrapping_add(index)))
    }
}

fn number(name: &str, text: &str) -> Result<u64, String> {
    text.parse()
        .map_err(|_| format!("{name} is to be a number, not {text:?}"))
}
