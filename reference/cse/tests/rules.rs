//! The rule beside each symbol, by hand. Symbols are numbered as they are first read, scopes as they open: in an IF the first branch
//! before the second.

use cse_reference::forest::{Forest, Tree};
use cse_reference::lister::{listing, Listing};
use cse_reference::notation::parse;
use cse_reference::trees::*;

const ONCE: &str = "used at most once";

fn listed(forest: &Forest) -> Listing {
    listing(&forest.to_bytes()).unwrap()
}

/// Symbols and their rules, in order.
fn says(forest: &Forest, rules: &[(usize, &str)]) {
    let lines = rules
        .iter()
        .map(|(symbol, rule)| format!("{symbol} {rule}\n"));
    let lines: String = lines.collect();
    let listing = listed(forest);
    assert_eq!(listing.rules.lines, lines);
    assert_eq!(listing.rules.counts.iter().sum::<usize>(), rules.len());
    // Behind all others.
    assert!(listing.text.ends_with(&lines), "{}", listing.text);
    let others = listing.text.lines().count() - rules.len();
    let symbols = listing.text.lines().next().unwrap().split(' ').nth(1);
    let symbols: usize = symbols.unwrap().parse().unwrap();
    assert_eq!(others, 1 + symbols + listing.savings.definitions.len());
}

fn notes(forest: &str, rules: &[(usize, &str)]) {
    says(&parse(forest).unwrap(), rules);
}

/// Something twice, as symbol 0.
fn twice(leaf: Tree, rule: &str) {
    says(&alone(p(leaf.clone(), leaf)), &[(0, rule), (1, ONCE)]);
}

/// Something once, as symbol 0.
fn once(leaf: Tree) {
    says(&alone(n(leaf)), &[(0, ONCE), (1, ONCE)]);
}

/// An operation without operand.
fn zero_of(opcode: u8) -> Tree {
    node(2, opcode, 0, &[], vec![])
}

fn constant(aux: u8) -> Tree {
    node(0, 0x00, aux, &[7, 1], vec![])
}

#[test]
fn the_requests_example() {
    let text = listed(&alone(p(z(), z()))).text;
    assert_eq!(
        text,
        "symbols 2\n0 O FE 0 2 y\n1 O 9A 0 0 n\n1 -31\n0 hoisted in scope 0\n1 used at most once\n"
    );
}

#[test]
fn a_refusal_has_its_line_alone() {
    let listing = listed(&alone(val_use(3)));
    assert_eq!(listing.text, "refused 10 at 0\n");
    assert_eq!(listing.rules.counts, [0; 7]);
}

#[test]
fn a_root_alone_has_a_line() {
    notes("z", &[(0, ONCE)]);
    notes("h", &[(0, ONCE)]);
}

#[test]
fn context_properties() {
    for opcode in [0xA3, 0xA4, 0xA5, 0xA7] {
        twice(zero_of(opcode), "context property");
        once(zero_of(opcode));
    }
    // Those beside them are none.
    for opcode in [0xA6, 0xAC, 0xFE] {
        twice(zero_of(opcode), "hoisted in scope 0");
    }
}

#[test]
fn global() {
    twice(zero_of(0xDD), "GLOBAL");
    once(zero_of(0xDD));
}

#[test]
fn scalar_constants() {
    // A mark, seven a class, changes nothing.
    for aux in [0, 1, 2, 3, 4, 5, 7, 12, 250] {
        twice(constant(aux), "scalar constant");
    }
    for aux in [6, 13, 251] {
        twice(constant(aux), "hoisted in scope 0");
    }
    // No constant.
    twice(node(1, 0x00, 0, &[9], vec![]), "hoisted in scope 0");
}

#[test]
fn a_scalar_that_is_used_once_is_no_scalar_constant() {
    for aux in [0, 3, 5, 6] {
        once(constant(aux));
    }
    // Two constants, each with one use.
    notes("p(k:1,k:2)", &[(0, ONCE), (1, ONCE), (2, ONCE)]);
    // Of the two uses the root reaches one.
    notes("n(p(k,k)) | n(k)", &[(0, ONCE), (3, ONCE)]);
}

#[test]
fn leaves_together() {
    notes(
        "p(p(h,h),p(k,k))",
        &[
            (0, "context property"),
            (1, ONCE),
            (2, "scalar constant"),
            (3, ONCE),
            (4, ONCE),
        ],
    );
}

#[test]
fn arguments() {
    notes(
        "L7.p(n(7),n(7))",
        &[
            (0, "argument"),
            (1, "hoisted in scope 1"),
            (2, ONCE),
            (3, ONCE),
        ],
    );
    // The gate would let it be hoisted.
    notes("L7.p(7,7)", &[(0, "argument"), (1, ONCE), (2, ONCE)]);
    // Argument 7 is not reached; the body is 8 itself.
    notes("L7,8.8", &[(1, "argument"), (2, ONCE)]);
    notes("L7.z", &[(1, ONCE), (2, ONCE)]);
}

#[test]
fn an_unreached_symbol_has_no_line() {
    // Field 2 is made with field 1.
    notes("s1(z)", &[(0, ONCE), (1, ONCE)]);
    notes(
        "if(z,s1(z),s1(z))",
        &[
            (0, "hoisted in scope 0"),
            (1, "hoisted in scope 1"),
            (3, ONCE),
        ],
    );
    // The first tree is p(z,z) under n, symbols 1 and 2.
    notes("n(p(z,z)) | n(z)", &[(0, ONCE), (3, ONCE)]);
    notes(
        "n(p(z,z)) | p(z,z)",
        &[(0, "hoisted in scope 0"), (1, ONCE)],
    );
    // No use of the definition.
    notes("{1=p(z,z); n(z)}", &[(0, ONCE), (2, ONCE)]);
}

#[test]
fn the_scope_is_that_of_the_block() {
    // Scope 1 is the first branch.
    notes(
        "if(h,p(x,x),z)",
        &[
            (0, ONCE),
            (1, "hoisted in scope 1"),
            (2, ONCE),
            (3, ONCE),
            (4, ONCE),
        ],
    );
    // A branch each, and ids alike.
    notes(
        "if(h,p(x,x),p(x,x))",
        &[
            (0, ONCE),
            (1, "hoisted in scope 1"),
            (2, ONCE),
            (3, "hoisted in scope 2"),
            (4, ONCE),
            (5, ONCE),
        ],
    );
    // x is first read in the body, scope 1, and hangs on no argument: its block is the root's.
    notes(
        "L7.p(n(7),p(x,x))",
        &[
            (0, "argument"),
            (1, ONCE),
            (2, "hoisted in scope 0"),
            (3, ONCE),
            (4, ONCE),
            (5, ONCE),
        ],
    );
    // The tuple is read again for its field, with scopes 3 and 4; its first reading is not reached.
    notes(
        "s1(tuple(if(h,p(x,x),z)))",
        &[
            (0, ONCE),
            (6, "hoisted in scope 3"),
            (7, ONCE),
            (8, ONCE),
            (9, ONCE),
            (10, ONCE),
            (11, ONCE),
        ],
    );
    // The right of AND, in the value of a definition.
    notes(
        "{1=and(h,p(x,x)); p(1,1)}",
        &[
            (0, ONCE),
            (1, "hoisted in scope 1"),
            (2, ONCE),
            (3, "hoisted in scope 0"),
            (4, ONCE),
        ],
    );
}

/// Field 1, too, is of the first branch, where nothing takes it.
#[test]
fn what_the_gate_lets_may_have_no_definition() {
    notes(
        "if(z,s2(z),p(s1(z),s1(z)))",
        &[
            (0, "hoisted in scope 0"),
            (1, "no definition written"),
            (2, ONCE),
            (3, ONCE),
            (4, ONCE),
        ],
    );
    // Taken in the outermost scope: 0 z, 1 h, 2 and 3 the fields, 4 and, 5 p, 6 the root.
    notes(
        "{1=z; p(and(h,s2(1)),p(s1(1),s1(1)))}",
        &[
            (0, "hoisted in scope 0"),
            (1, ONCE),
            (2, "no definition written"),
            (3, ONCE),
            (4, ONCE),
            (5, ONCE),
            (6, ONCE),
        ],
    );
    // Field 1 is taken in its own scope as well, and so has a definition there; for its two uses in the other one it has none.
    notes(
        "if(z,s1(z),p(s1(z),s1(z)))",
        &[
            (0, "hoisted in scope 0"),
            (1, "hoisted in scope 1"),
            (3, ONCE),
            (4, ONCE),
        ],
    );
}

/// Field 1 is written three times, in a definition and twice in the other branch: so is its operand, with x's definition. 0 h,
/// 1 x, 2 p(x,x), 3 z, 4 if; 5 the outer z, 6 and 7 the fields, made in scope 3, 8 p, 9 the root.
#[test]
fn one_symbol_in_several_blocks() {
    let forest = parse("{1=if(h,p(x,x),z); if(z,s1(1),p(s1(1),s1(1)))}").unwrap();
    says(
        &forest,
        &[
            (0, ONCE),
            (1, "hoisted in scope 1"),
            (2, ONCE),
            (3, ONCE),
            (4, ONCE),
            (5, ONCE),
            (6, "hoisted in scope 3"),
            (8, ONCE),
            (9, ONCE),
        ],
    );
    let rules = listed(&forest).rules;
    assert_eq!((rules.several, rules.elsewhere), (1, 0));
    assert_eq!(rules.counts, [0, 7, 0, 0, 0, 2, 0]);
}

/// In the definition's value id 1 is the argument.
#[test]
fn an_argument_with_the_definitions_id() {
    // 0 the argument, 1 n, 2 p, 3 the lambda, 4 the root; written {1=L1.{3=n(1); p(3,3)}; p(1,1)}.
    notes(
        "{5=L7.p(n(7),n(7)); p(5,5)}",
        &[
            (0, "argument"),
            (1, "hoisted in scope 1"),
            (2, ONCE),
            (3, "hoisted in scope 0"),
            (4, ONCE),
        ],
    );
}
