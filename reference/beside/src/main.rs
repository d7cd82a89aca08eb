//! The proved main call, check and programs beside the original and the readings; see `USAGE`.

mod archive;
mod asked;
mod compare;
mod count;
mod ends;
mod fillings;
mod halves;
mod list;
mod measure;
mod program;
mod refused;
mod source;
mod template_lines;
mod values;

use std::process::ExitCode;

use asked::Asked;
use compare::Told;
use cse_reference::generate::Family;
use source::Source;

const USAGE: &str = "\
usage: beside compare KIND COUNT [SEED [LEAST [TELLING]]]
                                          accepted forests of a kind through both; with marks, TELLING of them have to
                                          tell these apart: without they would have other symbols or another tree; of
                                          flat TELLING have to have over 4,096 entries of free lists, and of one-shape
                                          to have what comes near refusal 16 and is none
       beside damaged COUNT [SEED [LEAST]]
                                          refused forests through both
       beside two-shapes COUNT [SEED [LEAST [TELLING]]]
                                          forests where an opcode has two shapes through both; TELLING of them have to
                                          come of each way; in some another check finds a fault too
       beside list KIND COUNT [SEED [LEAST [TELLING]]]
                                          forests of a kind through the program lister, its text beside the reading's;
                                          TELLING of them have to tell what is counted: by the uses of all symbols they
                                          would have other symbols' lines; or, with marks, tell these apart: without they
                                          would have another text; or, of savings, tell what is saved: they have a saving
                                          above zero and one that is not, and by the uses of ids alone they would have
                                          other definitions' lines; or, of rules, have a line of each rule: TELLING of
                                          them of the rarest
       beside archive KIND COUNT [SEED [LEAST [TELLING]]]
                                          forests of a kind through the program archive_lister, its text beside the
                                          reading's; TELLING of them have to have a text that says mixed
       beside ends KIND COUNT [SEED [LEAST [TELLING]]]
                                          forests of a kind through the check: number, place and where subtrees end beside
                                          the reading; TELLING of them have to have a record that ends neither at the next
                                          one nor where its tree does
       beside fillings KIND COUNT [SEED [LEAST [TELLING]]]
                                          templates of a kind, each filled in three ways, through the main call: what it
                                          gives beside what it gives for the template, filled, and beside the original;
                                          TELLING of them have to tell marks apart where all parameters are filled alike
       beside template-lines KIND COUNT [SEED [LEAST [TELLING]]]
                                          templates of a kind and forests that have two values of a mark, or refused ones,
                                          through the program template, its line beside the reading's; of these two lines
                                          TELLING each have to be among them
       beside values KIND COUNT [SEED [LEAST [TELLING]]]
                                          forests of a kind that are one tree with no lambda and no SelectField through the
                                          main call: where the root has a value, the written tree has to have the same,
                                          under 16 meanings whose operations may fail; TELLING of them have to skip what
                                          fails and have a definition in the written tree
       beside measure COUNT [SEED]        time of both, by class
       beside growth                      time of both, as scripts grow
       beside forests KIND COUNT SEED     the forests whose time is measured, in hex
       beside count SIDE                  forests in hex from standard input, each once through the original or the call,
                                          for tools/count_instructions.py
Of list, archive, ends and template-lines KIND may be damaged or two-shapes too: forests that are refused. A KIND of
accepted ones may have marked- before it: its constants then have marks. Templates of a KIND without it are its forests
with marks on some constants, so that equal ones are one parameter. A difference is printed with its forest, and the
status is 1; so it is where a main call took over a second (but for values, which does not measure time), where fewer
than LEAST forests were compared, which is COUNT unless it is said, and not 0, or fewer than TELLING tell what they have
to, which is 0 unless it is said; compare takes another for marked kinds, flat and one-shape only, and ends and
template-lines none for refused ones.";

fn main() -> ExitCode {
    let arguments: Vec<String> = std::env::args().skip(1).collect();
    let words: Vec<&str> = arguments.iter().map(String::as_str).collect();
    match run(&words) {
        Some(true) => ExitCode::SUCCESS,
        Some(false) => ExitCode::FAILURE,
        None => {
            eprintln!("{USAGE}");
            ExitCode::from(2)
        }
    }
}

/// Whether all went well; none for a wrong command line.
fn run(words: &[&str]) -> Option<bool> {
    let number =
        |word: Option<&&str>, default| word.map_or(Some(default), |word| word.parse().ok());
    match words {
        ["compare", kind, rest @ ..] => {
            let family = Family::parse(kind)?;
            let asked = Asked::parse(rest)?;
            // Of other kinds none is asked to tell anything.
            let may_tell = Told::of(family).is_some();
            (may_tell || asked.telling == 0).then(|| compare::accepted(family, asked))
        }
        ["damaged", rest @ ..] if rest.len() < 4 => {
            Some(refused::damaged_forests(Asked::parse(rest)?))
        }
        ["two-shapes", rest @ ..] => Some(refused::mixed_forests(Asked::parse(rest)?)),
        ["list", kind, rest @ ..] => Some(list::listed(Source::parse(kind)?, Asked::parse(rest)?)),
        ["archive", kind, rest @ ..] => {
            Some(archive::listed(Source::parse(kind)?, Asked::parse(rest)?))
        }
        ["ends", kind, rest @ ..] => {
            let source = Source::parse(kind)?;
            let asked = Asked::parse(rest)?;
            let may_tell = source.family().is_some();
            (may_tell || asked.telling == 0).then(|| ends::compared(source, asked))
        }
        ["fillings", kind, rest @ ..] => {
            Some(fillings::filled(Family::parse(kind)?, Asked::parse(rest)?))
        }
        ["template-lines", kind, rest @ ..] => {
            let source = Source::parse(kind)?;
            let asked = Asked::parse(rest)?;
            let may_tell = source.family().is_some();
            (may_tell || asked.telling == 0).then(|| template_lines::compared(source, asked))
        }
        ["values", kind, rest @ ..] => {
            Some(values::valued(Family::parse(kind)?, Asked::parse(rest)?))
        }
        ["measure", count, rest @ ..] if rest.len() < 2 => {
            measure::classes(count.parse().ok()?, number(rest.first(), 1)?);
            Some(true)
        }
        ["growth"] => {
            measure::growth();
            Some(true)
        }
        ["forests", kind, count, seed] => {
            let family = Family::parse(kind)?;
            count::forests(family, count.parse().ok()?, seed.parse().ok()?);
            Some(true)
        }
        ["count", side] => Some(count::count(count::Side::parse(side)?)),
        _ => None,
    }
}
