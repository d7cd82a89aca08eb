#!/usr/bin/env python3
"""Shows that the theorems of crate theory, demand 3, every filling of a template and failing operations, rest on what crate model
defines: wrong definitions are refused.

Usage: check_theorem.py [--jobs N] [NAME...]

Each edit below gives the definitions another operand at one place, or leaves one out of a table, and leaves their operations as they
are. Where a proof repeats the definition's own words, the proof is given the edited words too: so the checker does not stop at words
that differ, but at a fact that no longer holds. For each edit, in a temporary copy of the crates:

- where there is a forest: `refl` shows, under the edited definitions, how it is written, and what becomes of that tree: it is not
  accepted (number and place), or it unfolds to something else; or that the call gives another number than it should. So the theorem
  is false there, however it were proved. (The same forests, under the definitions as they are, are written, accepted and unfold
  equally, or get the number that they should: the first thing that is checked.)
- crate theory is refused. The first refused declaration is printed, with the beginning of what the checker says; it has to be
  the one below. (Folder Bounds, the laws of building that only code cites, and most of what is said of labels are passed over: no
  theorem needs them; so are the folders of the two theorems that have one of their own, Templates and Failing, unless the edit is
  for that theorem.)

edit       the fact that fails, and why it is the theorem's: the written tree
hoist      member_is: a definition's symbol is of the scope that is written. Only then are the arguments that it depends on in
           force there; else it is written outside its lambda.
one-id     numbered_once: the ids of a lambda's arguments stand once. Else two arguments are one, and check 9 refuses the tree.
body-from  env_args: no id in force is above the last one given. Else a definition in a lambda's body takes an argument's id.
literals   is_key_true: a symbol found by its key has the record that was sought. Else another literal is written for it.
marks      same_rec_true: records that are the same are equal, marks and all. Else a parameter is written for another of equal value.
children   is_key_true: a symbol found by its key has the children that were sought. Else other children are written for it.
next-id    ids_def: each id given is in force after its definition. Else a use is written of an id that nothing binds.
placement  climb_stays: a symbol stays inside each lambda on whose arguments it depends. Else it is written outside of it.
use-shape  written_shaped: a use, a definition, a block and a lambda have opcodes that check 5 binds to their shapes. Else one stands in
           the written tree beside a record of the forest that has its opcode with another shape, and check 16 refuses the tree.

edit       the fact that fails: a number is given exactly where its condition holds
readings   cut_read, of the log of an interning without limits: the reading that interning refuses is the 2,049th.
symbols    cut_read, which has the limit of symbols too: none of those up to the 512th is refused.
inputs     listed: the tables say the paper's statements on opcodes, and so the one on A4. Else a forest is written that 5 is for.
depth      too_deep: check 7 finds what is deeper than 64. Else a forest gets another number.

The conditions are edited as well, which are no part of what the call does; the check is then not exact for them:
high-mark  right_tested: no mark is over 35 (4).
tuple      both_listed: 86 and Tuple go together both ways (5).
parent     stands_under: a definition stands in a block, in no other record (8).
own-value  force_loose: a definition is not in force in its own value (9, 10).
past-block force_loose: nor past its block (9, 10).

edit       the fact that fails, of the theorem on templates; its forest, filled, is then not written as the filled tree
unmarked   is_key_kept: filling keeps which keys are equal. Else two parameters that are equal under one filling are one.
gate-bytes should_hoist_kept: the gate sees no literal. Else a definition comes or goes with a value's length.
class      same_kept: filling keeps which records are the same. Else a value of another class is filled in, as it must not be.
one-value  record_valued: a parameter has one value in a template. Else two of its constants, apart there, are one when filled.
no-byte    record_fits: a filled constant fits its shape. Else check 4 refuses the filled forest.

edit       the fact that fails, of the theorem on failing operations; its forest has a value, and the written tree then has none
thunk      in_thunk: a thunk's scope is no lambda's, so its symbols stay there. Else what is skipped is defined outside, and is
           then never skipped.
skipped    member_is: the edit of hoist, with a forest for this theorem. Else what may be skipped is defined outside, and is then
           never skipped.
any-right  skipped-thunked: what is skipped has a scope of its own. Else it is defined in the one around, and is found after all.
environment passed_kept: the forest is one tree. Else another tree, which may fail, makes symbols in the same scope.
field      passed_kept: it has no SelectField. Else one makes both fields of a pair, though one of them may fail.

For the limits there is no forest (it would take 1,001 readings), nor for an edit of a condition, of a template or of a filling.
For environment and field crate model computes one, in FailingExamples.

And one that must be accepted, so that a refusal says something: `gate` defines symbols that are used once, too. What is hoisted
within its own scope is no matter of meaning, nor of a literal, nor of a value, so all three theorems hold (though the tree is then not
the one that document 01 defines).
`hoist` and `skipped` have that edit as well: of the symbols of deeper scopes, a schedule has only lambdas' bodies that depend on an argument not
in force and what thunks give, and each of these is used once.

Exit status: 0 if each edit is refused at its fact, the forests fare as said, and `gate` is accepted; 1 if not; 2 if the checker
itself failed."""
import argparse
import os
import re
import shutil
import subprocess
import sys
import tempfile
from concurrent.futures import ThreadPoolExecutor

TOP = os.path.dirname(os.path.dirname(os.path.abspath(__file__)))
CRATES = ("model", "laws", "labels", "theory")

COUNTER = """-- What becomes of a small forest: is the written tree accepted, and does it unfold to what the root unfolds to?
use Rattle.std.specs.Prelude.{ℕ, zero, suc, ◌+◌, ◌*◌, ◌≡◌, refl, Bool, true, false, ◌&&◌, List, [], ◌∷◌, ◌++◌, eqb, Option, None, Some}
use Rattle.std.proofs.Common.{arith}
use Rattle.model.specs.Lists.{same}
use Rattle.model.specs.Bytes.{put32}
use Rattle.model.specs.Answer.{Answer, refused, good}
use Rattle.model.specs.Tree.{Rec, rec, Tree, Trees, node, nil, cons, root, serialise}
use Rattle.model.specs.Forest.{trees_of}
use Rattle.model.specs.Accept.{accept}
use Rattle.model.specs.Unfold.{Unfolded, Unfoldeds, arg, lam, made, done, more, unfolded}
use Rattle.model.specs.Call.{Written, ample, run}
use Rattle.model.specs.Template.{Filling, fill_forest}
use Rattle.model.specs.Failing.{Semantics, eval}
use Rattle.model.specs.Computing.{computing, evaluating}

-- ---- equal unfoldings

equal_recs : Rec → Rec → Bool
equal_recs r q =
    eqb r.shape q.shape && eqb r.opcode q.opcode && eqb r.aux q.aux && same r.lit q.lit

equal_opts : List (List ℕ) → List (List ℕ) → Bool
equal_opts [] [] = true
equal_opts [] (y ∷ ys) = false
equal_opts (x ∷ xs) [] = false
equal_opts (x ∷ xs) (y ∷ ys) = same x y && equal_opts xs ys

mutual
  equal : Unfolded → Unfolded → Bool
  equal (arg a b) (arg c d) = eqb a c && eqb b d
  equal (arg a b) (lam t p c ys vs) = false
  equal (arg a b) (made q vs) = false
  equal (lam s o a xs us) (arg c d) = false
  equal (lam s o a xs us) (lam t p c ys vs) = eqb s t && eqb o p && eqb a c && equal_opts xs ys && equals us vs
  equal (lam s o a xs us) (made q vs) = false
  equal (made r us) (arg c d) = false
  equal (made r us) (lam t p c ys vs) = false
  equal (made r us) (made q vs) = equal_recs r q && equals us vs

  equals : Unfoldeds → Unfoldeds → Bool
  equals done done = true
  equals done (more v vs) = false
  equals (more u us) done = false
  equals (more u us) (more v vs) = equal u v && equals us vs

-- ---- what becomes of a forest of one tree

data Fate : Type 0 where
  call_refuses not_accepted : ℕ → ℕ → Fate
  unfolds : Bool → Fate

read_back : Tree → Answer Trees → Fate
read_back t (refused n p) = not_accepted n p
read_back t (good ts) = unfolds (equal (unfolded (root ts)) (unfolded t))

after_call : Tree → Answer Written → Fate
after_call t (refused n p) = call_refuses n p
after_call t (good w) = read_back t (accept w.bytes)

called : Tree → Answer Written
called t = run (ample (serialise (cons t nil)))

fate : Tree → Fate
fate t = after_call t (called t)

-- an answer is this tree
is : Answer Written → Tree → Bool
is (refused n p) t = false
is (good w) t = same w.bytes (serialise (cons t nil))

-- ---- what becomes of its filling by seven bytes for each parameter

sevens : Filling
sevens = record { literal = λ a. 7 ∷ 7 ∷ 7 ∷ 7 ∷ 7 ∷ 7 ∷ 7 ∷ []; some_bytes = λ a l. omega arith }

-- the second is written as the first, filled
agree : Answer Written → Answer Written → Bool
agree (refused n p) v = false
agree (good w) (refused n p) = false
agree (good w) (good v) = same v.bytes (fill_forest sevens w.bytes)

commutes : Tree → Bool
commutes t = agree (called t) (run (ample (fill_forest sevens (serialise (cons t nil)))))

-- ---- has it a value, and has the written tree one, where z fails, and nothing else, and what may be skipped is

careful : Semantics ℕ
careful = record {
  apply = λ r vs. elim (eqb r.opcode 0xFE) [ true ↦ None | false ↦ Some 0 ];
  takes = λ v. true;
  skips = λ op v. true;
}

has : Option ℕ → Bool
has None = false
has (Some v) = true

root_has : Tree → Bool
root_has t = has (eval careful t [])

tree_has : Answer Written → Bool
tree_has (refused n p) = false
tree_has (good w) = has (eval careful (root (trees_of w.bytes)) [])

-- ---- the paper's letters

z : Tree
z = node (rec 2 0xFE 0 []) nil

h : Tree
h = node (rec 2 0xA3 0 []) nil

-- an SInt
k : ℕ → Tree
k n = node (rec 0 0 3 (n ∷ [])) nil

-- an SInt with a mark
m : ℕ → Tree
m n = node (rec 0 0 (3 + 7 * n) (1 ∷ [])) nil

-- an other-class constant with a mark and a value
x : ℕ → ℕ → Tree
x n v = node (rec 0 0 (6 + 7 * n) (v ∷ [])) nil

n : Tree → Tree
n a = node (rec 3 0xF0 0 []) (cons a nil)

p : Tree → Tree → Tree
p a b = node (rec 4 0x9A 0 []) (cons a (cons b nil))

-- ED
e : Tree → Tree → Tree
e a b = node (rec 4 0xED 0 []) (cons a (cons b nil))

-- a Two under the opcode of a use
q : Tree → Tree → Tree
q a b = node (rec 4 0x72 0 []) (cons a (cons b nil))

-- a use
u : ℕ → Tree
u i = node (rec 7 0x72 0 (put32 i)) nil

-- lambdas of one and of two arguments, without types
L : ℕ → Tree → Tree
L i b = node (rec 12 0xD9 1 (put32 i ++ (0 ∷ []))) (cons b nil)

L2 : ℕ → ℕ → Tree → Tree
L2 i j b = node (rec 12 0xD9 2 (put32 i ++ (0 ∷ (put32 j ++ (0 ∷ []))))) (cons b nil)

-- a block, {i=a; r}
B : ℕ → Tree → Tree → Tree
B i a r = node (rec 11 0xD8 0 []) (cons (node (rec 10 0xD6 0 (put32 i ++ (0 ∷ []))) (cons a nil)) (cons r nil))

-- an operation of one operand under INPUTS, which is Zero
i : Tree → Tree
i a = node (rec 3 0xA4 0 []) (cons a nil)

-- n so many times
deep : ℕ → Tree
deep zero = z
deep (suc d) = n (deep d)

-- ---- the forests
"""
FATE = """
{name} : fate ({tree}) ≡ {fate}
unfolding fate called after_call read_back equal equal_recs equal_opts z h k m n p q u L L2 i deep computing
{name} = refl
"""
WRITTEN = """
{name}_tree : is (called ({tree})) ({written}) ≡ true
unfolding is called z h k m n p q e u L L2 B i deep computing
{name}_tree = refl
"""
FILLED = """
{name}_filled : commutes ({filled}) ≡ {kept}
unfolding commutes agree called sevens n p x computing
{name}_filled = refl
"""
VALUES = """
{name}_root : root_has ({value}) ≡ {found}
unfolding root_has careful has z k p e computing evaluating
{name}_root = refl

{name}_value : tree_has (called ({value})) ≡ {kept}
unfolding tree_has called careful has z k p e computing evaluating
{name}_value = refl
"""

MEMBER = "model/specs/Materialize"
DEFINING = "laws/proofs/Defining"
INTERN = "model/specs/Intern"
SCOPES = "theory/proofs/Building/Scopes"
GIVEN = "theory/proofs/Building/Given"
LABELS = "model/specs/Labels"
ERASED, LABELLED = "labels/proofs/Erased", "labels/proofs/Records"
NUMBERED = "theory/proofs/Building/Numbered"
FINISH = "theory/proofs/Interning/Finish"
INV = "theory/proofs/Interning/Inv"
NESTING, RULES = (f"model/specs/{name}" for name in ("Nesting", "OpcodeRules"))
TRACE, COUNTED, TOGETHER, DEPTHS, PLACED, IDS = (
    f"theory/proofs/Demand3/{name}" for name in ("Trace", "Counted", "OpcodeRules", "Depths", "Placed", "Ids"))
KEYS, RECORDS = (f"theory/proofs/Templates/{name}" for name in ("Keys", "Records"))
TEMPLATE = "model/specs/Template"
FAILING = "model/specs/Failing"
UNMARKED = "same_rec (rec {0}.shape {0}.opcode (class {0}.aux) {0}.lit) (rec {1}.shape {1}.opcode (class {1}.aux) {1}.lit)"
AUX = "(elim (is_parameter r) [ true ↦ 7 * mark r.aux | false ↦ r.aux ])"
ONCE = ("should_hoist (sym_of g s) (usage g s)", "should_hoist (sym_of g s) (suc (usage g s))")
SAME_REC = "(rec {0}.shape {0}.opcode {0}.aux r.lit) r"
NEXT = "suc (suc last)"


class Edit:
    def __init__(self, name, says, edits, words, fact=None, tree=None, fate=None, written=None, was="unfolds true", filled=None,
                 templates=False, value=None, had="true", failing=False):
        """`edits` are to model and stand once each; `words` are the same words where theory repeats them; `fact` is the
        declaration that has to be refused first, of those that the theorem needs; `fate` is what becomes of `tree`, if
        there is one, which is written as `written`, if that is to be shown, both in the letters of COUNTER; `was` is its
        fate under the definitions as they are. `templates`: the edit is for the theorem on templates; `filled` is a tree whose
        filling is written as the filled tree, and under the edit is not. `failing`: it is for the theorem on failing operations;
        `value` is a tree that under the edit has a value, and whose written tree then has none; `had` says whether both have one
        under the definitions as they are, or neither. `written` is then that of `value`."""
        self.name, self.says, self.edits, self.words = name, says, edits, words
        self.fact, self.tree, self.fate, self.written, self.was = fact, tree, fate, written, was
        self.filled, self.templates = filled, templates or filled is not None
        self.value, self.had, self.failing = value, had, failing or value is not None


EDITS = [
    Edit("hoist", "a member of another scope is hoisted",
         [(MEMBER, "eqb (sym_of g s).scope sc", "eqb (sym_of g s).scope (sym_of g s).scope"), (MEMBER, *ONCE)],
         [(SCOPES, "eqb (sym_of g s).scope sc in", "eqb (sym_of g s).scope (sym_of g s).scope in"), (SCOPES, *ONCE)],
         "member_is", "L 7 (n (u 7))", "not_accepted 10 3", "B 1 (n (u 0)) (L 2 (u 1))"),
    Edit("one-id", "a lambda's arguments all get the same number",
         [(MEMBER, "(a.1 ++ arg_lit (suc last) xs)", "(a.1 ++ arg_lit last xs)"),
          (MEMBER, "arg_env (suc last) xs ((a.0, suc last) ∷ env)", "arg_env last xs ((a.0, suc last) ∷ env)")],
         [(f, a, b) for f in (NUMBERED, GIVEN)
          for a, b in (("(suc last) xs", "last xs"), ("(suc last) (suc p) xs", "last (suc p) xs"))],
         "numbered_once", "L2 7 8 (p (u 7) (u 8))", "not_accepted 9 0", "L2 1 1 (p (u 1) (u 1))"),
    Edit("body-from", "a lambda's body is numbered from before its arguments",
         [(MEMBER, "(suc (last + length xs))", "last")],
         [(GIVEN, "last_in last xs = suc (last + length xs)", "last_in last xs = last")]
         + [(f, "(suc (last + length xs))", "last") for f in (LABELS, ERASED, LABELLED)],
         "env_args", "L 7 (p (n (u 7)) (n (u 7)))", "not_accepted 9 2", "L 1 (B 1 (n (u 1)) (p (u 1) (u 1)))"),
    Edit("literals", "keys are equal without their literals",
         [(INTERN, "same_rec (sym_at ss i).rec r &&", "same_rec " + SAME_REC.format("(sym_at ss i).rec") + " &&")],
         [(FINISH, "and_both (same_rec (rec_at ss i) r)", "and_both (same_rec " + SAME_REC.format("(rec_at ss i)") + ")"),
          (FINISH, "Tree.{Rec, same_rec}", "Tree.{Rec, rec, same_rec}")],
         "is_key_true", "p (k 1) (k 2)", "unfolds false", "p (k 1) (k 1)"),
    Edit("marks", "keys are equal whatever their marks",
         [("model/specs/Tree", "eqb a.aux b.aux", "eqb (class a.aux) (class b.aux)")],
         [("laws/proofs/Members", "let x = eqb a.aux b.aux in", "let x = eqb (class a.aux) (class b.aux) in"),
          ("laws/proofs/Members", "eqb-true a.aux b.aux q.1", "eqb-true (class a.aux) (class b.aux) q.1"),
          ("laws/proofs/Members", "Tree.{Rec, same_rec}", "Tree.{Rec, class, same_rec}")],
         "same_rec_true", "p (m 1) (m 2)", "unfolds false", "p (m 1) (m 1)"),
    Edit("children", "keys are equal without their child symbols",
         [(INTERN, "same (sym_at ss i).kids ks", "same ks ks")],
         [(FINISH, "(same (sym_kids ss i) ks) e in", "(same ks ks) e in")],
         "is_key_true", "p (n z) (n h)", "unfolds false", "B 1 (n z) (p (u 1) (u 1))"),
    Edit("next-id", "a definition's use is written with the next number",
         [(MEMBER, "((s, suc last) ∷ env)", f"((s, {NEXT}) ∷ env)")],
         [(f, "(s, suc last) ∷ env", f"(s, {NEXT}) ∷ env") for f in (DEFINING, SCOPES, GIVEN, LABELS, ERASED, LABELLED)] +
         [(GIVEN, "given_cases s (suc last)", f"given_cases s ({NEXT})"),
          (GIVEN, "has_more s (suc last)", f"has_more s ({NEXT})"),
          (GIVEN, "(s ≡ t) × (suc last ≡ i)", f"(s ≡ t) × ({NEXT} ≡ i)"),
          (GIVEN, "(s ≡ a) × (suc last ≡ i)", f"(s ≡ a) × ({NEXT} ≡ i)"),
          (SCOPES, "has_more s (suc last)", f"has_more s ({NEXT})")],
         "ids_def", "p z z", "not_accepted 10 4", "B 1 z (p (u 2) (u 2))"),
    Edit("placement", "a symbol moves out of lambdas whose arguments it depends on",
         [(INTERN, "elim (any_in xs deps)", "elim (any_in xs [])")],
         [(INV, "elim (any_in xs deps)", "elim (any_in xs [])"), (INV, "any_in xs deps ≡ t", "any_in xs [] ≡ t")],
         "climb_stays", "L 7 (p (n (u 7)) (n (u 7)))", "not_accepted 10 3", "B 1 (n (u 0)) (L 2 (p (u 1) (u 1)))"),
    Edit("use-shape", "72 is not bound to ValUse, so a record of another shape may have it",
         [("model/specs/Shape", "(ValUseOp, ValUse) ∷ ", ""), (RULES, "  pub val_use : (o ≡ 0x72) ↔ (s ≡ 7)\n", "")],
         [(TOGETHER, "  val_use = (x.0, y.0);\n", ""), (TOGETHER, "t.val_use.0 also ", ""), (TOGETHER, "t.val_use.1 also ", "")]
         + [(TOGETHER, f"{name} = (x.1{rest}.0, y.1{rest}.0)", f"{name} = (x{rest}.0, y{rest}.0)") for name, rest in
            (("val_def", ""), ("block_value", ".1"), ("func_value", ".1.1"), ("select_field", ".1.1.1"), ("tuple", ".1.1.1.1"))],
         "written_shaped", "q z z", "not_accepted 16 4", "B 1 z (q (u 1) (u 1))", "call_refuses 5 0"),
    Edit("readings", "interning refuses over 1,000 readings",
         [(INTERN, "ltb st.readings 2048", "ltb st.readings 1000")],
         [(f"theory/proofs/{f}", "2048", "1000") for f in
          ("Promise/Refusals", "Interning/Walk", "Interning/Records", "Interning/Reread", "Interning/Reread/Walk", "Interning/Reread/Later",
           "Failing/Walk")]
         + [(TRACE, "2048", "1000"), (COUNTED, "lt-ltb r 2048", "lt-ltb r 1000"), (COUNTED, "le-ltb r 2048", "le-ltb r 1000")],
         "cut_read"),
    Edit("symbols", "interning refuses over 100 symbols",
         [(INTERN, "ltb (length st.syms) 512", "ltb (length st.syms) 100")],
         [(f"theory/proofs/{f}", "512", "100") for f in
          ("Promise/Refusals", "Interning/Fresh", "Interning/Finish", "Interning/Records")]
         + [(TRACE, "512", "100"), (COUNTED, "lt-ltb s 512", "lt-ltb s 100"), (COUNTED, "le-ltb s 512", "le-ltb s 100")],
         "cut_read"),
    Edit("inputs", "A4 is not in the table of opcodes",
         [("model/specs/Shape", "(InputsOp, Zero) ∷ ", "")], [],
         "listed", "i z", "unfolds true", "i z", "call_refuses 5 0"),
    Edit("depth", "check 7 lets a depth of 65 pass",
         [("model/specs/Forest", "ltb 64 d", "ltb 65 d")],
         [("theory/proofs/Acceptance/Bytes", "le-ltb 64 d", "le-ltb 65 d"), (DEPTHS, "ltb 64 e", "ltb 65 e"),
          (DEPTHS, "ltb-true 64", "ltb-true 65"), (DEPTHS, "lt-ltb 64", "lt-ltb 65")],
         "too_deep", "deep 64", "call_refuses 14 0", None, "call_refuses 7 64"),
    Edit("high-mark", "a mark may be 36",
         [("model/specs/ShapeRules", "m ≤ 35", "m ≤ 36")], [], "right_tested"),
    Edit("tuple", "opcode 86 is for Tuple, which may have another opcode",
         [(RULES, "(o ≡ 0x86) ↔ (s ≡ 16)", "o ≡ 0x86 → s ≡ 16")],
         [(TOGETHER, "tuple = (x.1.1.1.1.1.0, y.1.1.1.1.1.0)", "tuple = x.1.1.1.1.1.0"),
          (TOGETHER, "t.tuple.0", "t.tuple")],
         "both_listed"),
    Edit("parent", "a definition may stand in any record but a constant",
         [(NESTING, "(shape_in ts b ≡ BlockValue) ×", "(1 ≤ shape_in ts b) ×")],
         [(PLACED, "ap (λ z. z.shape) (rec-under r us ts b j) ∙ s", "omega (arith, s, ap (λ z. z.shape) (rec-under r us ts b j))"),
          (PLACED, "ap (λ z. z.shape) (rec-top r us ts) ∙ eqb-true r.shape 11 s",
           "omega (arith, ap (λ z. z.shape) (rec-top r us ts), eqb-true r.shape 11 s)"),
          (PLACED, "shape_in W b ≡ 11", "1 ≤ shape_in W b"), (PLACED, "{ℕ, suc, ◌+◌, ◌<◌}", "{ℕ, suc, ◌+◌, ◌<◌, ◌≤◌}")],
         "stands_under"),
    Edit("own-value", "a definition is in force in its own value",
         [(NESTING, "end_of ts d ≤ p →", "d < p →")],
         [(IDS, "w.1 w.2 h (f", "w.1 w.2 (omega (arith, h, (extent_fits ts d l).0)) (f")], "force_loose"),
    Edit("past-block", "a definition is in force at the record after its block",
         [(NESTING, "p < end_of ts b → InForce", "p ≤ end_of ts b → InForce")],
         [(IDS, "(f w.0 w.2.0).1", "(omega (arith, (f w.0 w.2.0).1))")], "force_loose"),
    Edit("unmarked", "keys are equal whatever their marks, said of keys",
         [(INTERN, "same_rec (sym_at ss i).rec r &&", UNMARKED.format("(sym_at ss i).rec", "r") + " &&"),
          (INTERN, "Tree.{Rec, rec, same_rec,", "Tree.{Rec, rec, class, same_rec,")],
         [(KEYS, "same_rec z.rec (fill_rec f r) &&", UNMARKED.format("z.rec", "(fill_rec f r)") + " &&"),
          (KEYS, "Tree.{Rec, same_rec}", "Tree.{Rec, rec, class, same_rec}")],
         "is_key_kept", filled="p (n (x 1 1)) (n (x 2 2))"),
    Edit("gate-bytes", "a constant is scalar by its literal's length",
         [("model/specs/Gate", "ltb (class s.rec.aux) 6", "ltb (class s.rec.aux) (length s.rec.lit)"),
          ("model/specs/Gate", "eqb, ltb}", "eqb, ltb, length}")], [],
         "should_hoist_kept", filled="p (x 1 1) (x 1 1)"),
    Edit("class", "a filling gives a parameter another class",
         [(TEMPLATE, "r.aux (elim (is_parameter r) [", AUX + " (elim (is_parameter r) ["),
          (TEMPLATE, "Tree.{Rec, rec,", "Tree.{Rec, rec, mark,"), (TEMPLATE, "ℕ, suc, ◌<◌", "ℕ, suc, ◌*◌, ◌<◌")],
         [(RECORDS, f"{name} r e = λ i. rec r.shape r.opcode r.aux (lit_is i)\n    where\n",
           f"{name} r e = λ i. rec r.shape r.opcode (aux_is i) (lit_is i)\n    where\n      aux_is : {AUX} ≡ {aux}\n      aux_is = rw e\n")
          for name, aux in (("other_stays", "r.aux"), ("parameter_gets", "7 * mark r.aux"))]
         + [(RECORDS, "r.opcode r.aux (f.literal r.aux)\n", "r.opcode (7 * mark r.aux) (f.literal r.aux)\n"),
            (RECORDS, "Tree.{Rec, rec,", "Tree.{Rec, rec, mark,"), (RECORDS, "{ℕ, suc, ◌<◌, ◌≤◌}", "{ℕ, suc, ◌*◌, ◌<◌, ◌≤◌}")],
         "same_kept", filled="p (x 1 1) (x 1 1)"),
    Edit("one-value", "a parameter may have two values in a template",
         [(TEMPLATE, "(record_at forest p).rec.lit ≡ (record_at forest q).rec.lit", "(record_at forest p).rec.lit ≡ (record_at forest p).rec.lit")],
         [], "record_valued", templates=True),
    Edit("no-byte", "a filling may give an empty literal",
         [(TEMPLATE, "1 ≤ length (literal a)", "0 ≤ length (literal a)")], [], "record_fits", templates=True),
    Edit("thunk", "a thunk's symbols move out of it, as out of a lambda with no arguments",
         [(INTERN, "open_scope cur None ([] ∷ st.tables)", "open_scope cur (Some []) ([] ∷ st.tables)")],
         [(f"theory/proofs/{f}", "cur None ([] ∷", "cur (Some []) ([] ∷") for f in
          ("Interning/Operands", "Interning/Reread/Walk", "Failing/Thunks")]
         + [(f"theory/proofs/{f}", "args = None }", "args = Some [] }") for f in ("Interning/Operands", "Failing/Thunks")]
         + [(f"theory/proofs/{f}", "Prelude.{None}", "Prelude.{None, Some}") for f in ("Interning/Operands", "Interning/Reread/Walk")],
         "in_thunk", value="e (k 1) (p z z)", written="B 1 z (e (k 1) (p (u 1) (u 1)))"),
    Edit("skipped", "what stands in a scope that may be skipped is defined outside of it",
         [(MEMBER, "eqb (sym_of g s).scope sc", "eqb (sym_of g s).scope (sym_of g s).scope"), (MEMBER, *ONCE)],
         [(SCOPES, "eqb (sym_of g s).scope sc in", "eqb (sym_of g s).scope (sym_of g s).scope in"), (SCOPES, *ONCE)],
         "member_is", value="e (k 1) z", written="B 1 z (e (k 1) (u 1))"),
    Edit("any-right", "any operation may skip its right operand",
         [(FAILING, "((eqb op AndOp || eqb op OrOp) &&", "((eqb op op || eqb op OrOp) &&")],
         [("theory/proofs/Failing/Values", "go (eqb op IfOp) (eqb op AndOp || eqb op OrOp)", "go (eqb op IfOp) (eqb op op || eqb op OrOp)")],
         "skipped-thunked", value="p (k 1) (p z z)", had="false", written="B 1 z (p (k 1) (p (u 1) (u 1)))"),
    Edit("environment", "a forest may have several trees",
         [(FAILING, "tree_count forest ≡ 1", "tree_count forest ≡ tree_count forest")], [], "passed_kept", failing=True),
    Edit("field", "a forest may have a SelectField",
         [(FAILING, "(record_at forest p).rec.shape ≡ SelectField", "(record_at forest p).rec.shape ≡ FuncValue")], [], "passed_kept",
         failing=True),
]
GATE = Edit("gate", "symbols that are used once are defined, too", [(MEMBER, *ONCE)],
            [(SCOPES, *ONCE), ("theory/proofs/Templates/Building", "should_hoist_kept f g s (usage g s)", "should_hoist_kept f g s (suc (usage g s))")])


def fail(why):
    print(f"check_theorem: {why}", file=sys.stderr)
    sys.exit(2)


def replace(room, place, old, new, once):
    path = os.path.join(room, "crates", place + ".antt")
    with open(path) as f:
        text = f.read()
    if old not in text or once and text.count(old) != 1:
        fail(f"{place}: {old!r} stands {text.count(old)} times")
    with open(path, "w") as f:
        f.write(text.replace(old, new))


def leave_out(folder, names, listing="Lib.antt"):
    """Removes modules of a folder, which that file lists."""
    lib = os.path.join(folder, listing)
    with open(lib) as f:
        text = f.read()
    for name in names:
        if text.count(f"pub mod {name}\n") != 1:
            fail(f"{folder} has no module {name}")
        os.remove(os.path.join(folder, name + ".antt"))
        text = text.replace(f"pub mod {name}\n", "")
    with open(lib, "w") as f:
        f.write(text)


def checked(edit, fates, crates):
    """Checks crates of a copy with the edit, in order, up to the first that is refused: how many the checker proves, and what it says of the last."""
    with tempfile.TemporaryDirectory() as room:
        for name in CRATES:
            shutil.copytree(os.path.join(TOP, "crates", name), os.path.join(room, "crates", name), ignore=shutil.ignore_patterns("out", "must-fail"))
        with open(os.path.join(room, "crates.txt"), "w") as f:
            f.write("model:\nlaws: model\nlabels: model laws\ntheory: model laws labels\n")
        model = os.path.join(room, "crates", "model")
        # the tables of examples, and laws that code cites and the theorem does not, would be refused before anything else
        specs = os.path.join(model, "specs")
        leave_out(specs, [name.removesuffix(".antt") for name in os.listdir(specs) if name.endswith("Examples.antt")])
        leave_out(os.path.join(room, "crates", "laws", "proofs"), ["Blocks", "Building", "Numbering"])
        # and what is said of labels, but that the labelled tree is the written one, and what each of its records has
        leave_out(os.path.join(room, "crates", "labels", "proofs"), ["Blocks", "Counted", "Rules", "Steps"])
        leave_out(os.path.join(room, "crates", "theory", "proofs", "Promise"), ["Definitions"], "../Promise.antt")
        os.mkdir(os.path.join(model, "proofs"))
        with open(os.path.join(model, "proofs", "Lib.antt"), "w") as f:
            f.write("mod Counter\n")
        with open(os.path.join(model, "proofs", "Counter.antt"), "w") as f:
            f.write(COUNTER + "".join(fates))
        for place, old, new in edit.edits if edit else []:
            replace(room, place, old, new, True)
        for place, old, new in edit.words if edit else []:
            replace(room, place, old, new, False)
        for proved, crate in enumerate(crates):
            run = subprocess.run(["rt", "check"], cwd=os.path.join(room, "crates", crate), capture_output=True, text=True)
            said = re.sub(r"^\./", f"{crate}/", run.stdout + run.stderr, flags=re.M)
            if run.returncode not in (0, 1):
                fail(said[-3000:])
            if run.returncode != 0:
                return proved, said
    return len(crates), said


def judge(edit):
    """Lines to print, and whether all is as it should be."""
    lines = [f"{edit.name}: {edit.says}"]
    lines += [f"  {place}: {old}  becomes  {new}" for place, old, new in edit.edits]
    words = dict(name="it", tree=edit.tree or edit.value, fate=edit.fate, written=edit.written, filled=edit.filled, value=edit.value,
                 found="true", kept="false")
    claims = (FATE, edit.tree), (WRITTEN, edit.written), (FILLED, edit.filled), (VALUES, edit.value)
    proved, said = checked(edit, [text.format(**words) for text, there in claims if there], CRATES)
    if edit is GATE:
        lines.append("  accepted, as it should be" if proved == len(CRATES) else "  REFUSED: " + said[-800:])
        return lines, proved == len(CRATES)
    if proved == 0:
        return lines + ["  NO COUNTEREXAMPLE: " + said[-800:]], False
    if edit.tree:
        written = f" is written as {edit.written}, whose fate is" if edit.written else ", whose fate is"
        lines.append(f"  computed: {edit.tree}{written}: {edit.fate}")
    # (a declaration that is passed over since one before it is refused is not said in this form)
    errors = re.findall(r"^(\S+):(\d+):\d+: error: `([^`]*)`: (.*)$", said, re.M)
    if edit.filled:
        lines.append(f"  computed: {edit.filled}, filled, is not written as the filled tree")
    if edit.value:
        lines.append(f"  computed: {edit.value} has a value, and is written as {edit.written}, which has none")
    errors = [e for e in errors if "/Bounds/" not in e[0] and ("/Templates/" in e[0]) == edit.templates
              and (edit.failing or "/Failing/" not in e[0])]
    if proved == len(CRATES) or not errors:
        return lines + ["  ACCEPTED" if proved == len(CRATES) else "  REFUSED, but at no declaration: " + said[-800:]], False
    place, line, name, why = errors[0]
    lines.append(f"  refused: {name} ({place}:{line}): {why[:200]}")
    if name != edit.fact:
        lines.append(f"  NOT at {edit.fact}")
    return lines, name == edit.fact


def main():
    parser = argparse.ArgumentParser(description=__doc__.split("\n")[0])
    parser.add_argument("names", nargs="*")
    parser.add_argument("--jobs", type=int, default=2)
    options = parser.parse_args()
    known = EDITS + [GATE]
    if set(options.names) - {e.name for e in known} or options.jobs < 1:
        fail("the names are " + ", ".join(e.name for e in known))
    fates = [FATE.format(name=f"it{i}", tree=e.tree, fate=e.was) for i, e in enumerate(EDITS) if e.tree]
    fates += [FILLED.format(name=f"it{i}", filled=e.filled, kept="true") for i, e in enumerate(EDITS) if e.filled]
    fates += [VALUES.format(name=f"it{i}", value=e.value, found=e.had, kept=e.had) for i, e in enumerate(EDITS) if e.value]
    proved, said = checked(None, fates, ["model"])
    if proved == 0:
        print("the forests, under the definitions as they are: REFUSED\n" + said[-2000:])
        return 1
    print("the forests, under the definitions as they are: written, accepted, and unfold equally, or refused as they should be; and written, filled, as the filled tree; and with a value where the root has one")
    right = True
    with ThreadPoolExecutor(options.jobs) as pool:
        for lines, ok in pool.map(judge, [e for e in known if not options.names or e.name in options.names]):
            print("\n".join(lines))
            right = right and ok
    print("each edit is refused at its fact" if right else "NOT as it should be")
    return 0 if right else 1


if __name__ == "__main__":
    sys.exit(main())
