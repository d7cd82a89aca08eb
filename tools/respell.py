#!/usr/bin/env python3
"""Spells this repository's own names as today's Rattle spells names, after the kit's port.py has turned the rest.

usage: respell.py [ROOT]        once, on a tree that port.py has turned; rewrites crates/ (.antt, .rt, .edit) below ROOT in place

    rowLen, internAll-keeps, records-most  ->  row_len, intern_all_keeps, records_most

- a name in camel case that begins with a small letter: snake case, wherever it stands;
- a name with dashes that a file of specs/ or a file of lemmas declares: an underscore for each dash, but where the dash joins two names
  of definitions (a dash joins two names; a plain word is added with an underscore). Fields and constructors have underscores alone;
- in a proof file of a function, what only that file declares keeps its dashes: Rattle or its author names the parts of one proof.

Names that would fall together, with each other or with a word that stands in the same texts, keep their dashes and are printed. Comments are
turned in backquotes, and for camel case everywhere. Strings stay. The list of what was turned goes to ROOT/respelled.tsv if that file exists.
"""

import collections
import glob
import os
import re
import sys

WORD = r"[^\s(){}.;,@\"«»\[\]\\]+"
TOKEN = re.compile(r"--[^\n]*|//[^\n]*|\"(?:[^\"\\]|\\[\s\S])*\"|" + WORD)
DECLARED = re.compile(r"^(\s*)((?:pub |abbrev |unfoldable |pattern )*)([^\s=(){}]+(?: [^\s=(){}]+)*) : ")
NOT = re.compile(r"\s*(let|use|record|data|module|mod|in|λ|ghost) ")
NAME = re.compile(r"^[^\s(){}.;,@\"«»\[\]\\=→×≡∙◌λ]+$")
OWN_PROOF = re.compile(r"/proofs/(.*/)?(Proof|Answers|Invariants)(/.*)?\.antt$|/proofs/.*\+")
# lemmas that would have a definition's name, and that port.py has spelled with underscores
LEMMAS = {
    n: n + "_lem" for n in "found_of sym_at operand_in of_tree".split()
}
# in no text beside the lemma of that name
ALONE = {"oneMore": "one_more"}
# words of the kit's library that names of lemmas join
LIBRARY = set("length take drop append map set get_or eqb ltb leb cons nil zero suc mul div mod add sub min max and or not xor fold filter reverse replicate sum".split())


def camel(name):
    """Each part between dashes in snake case, if it begins with a small letter."""
    def part(p):
        if not re.match(r"^_?[a-zμ]", p):
            return p
        return re.sub(r"(?<=[a-z0-9])([A-Z]+)(?![a-z])|(?<=[a-z0-9])([A-Z])", lambda m: "_" + (m[1] or m[2]).lower(), p)
    return "-".join(map(part, name.split("-")))


def files(root, *endings):
    for e in endings:
        yield from sorted(p for p in glob.glob(os.path.join(root, "crates", "**", "*" + e), recursive=True) if "/out/" not in p)


def read(p):
    with open(p, encoding="utf-8") as f:
        return f.read()


def declarations(text):
    """(name, how) for each name that a text declares: how is 'field' in a record or data, else 'item'."""
    inside = None
    for line in text.split("\n"):
        if not line.strip() or line.strip().startswith("--"):
            continue
        indent = len(line) - len(line.lstrip())
        if inside is not None and indent <= inside:
            inside = None
        if re.match(r"\s*(pub )?(record|data) ", line):
            inside = indent
            continue
        m = DECLARED.match(line)
        if not m or NOT.match(line):
            continue
        for n in m[3].split(" "):
            if NAME.match(n):
                yield n, "field" if inside is not None else "item", m[2]


def main(root):
    antt = {p: read(p) for p in files(root, ".antt")}
    fields, items, local, defined = set(), collections.Counter(), set(), set(LIBRARY)
    for p, t in antt.items():
        for n, how, marks in declarations(t):
            if OWN_PROOF.search(p):
                local.add(n)
            elif how == "field":
                fields.add(n)
            else:
                items[n] += 1
                if "/specs/" in p and marks.strip() not in ("", "pub") and "-" not in n and n != "kept":
                    defined.add(camel(n))
    # the words of each file that stand behind no dot: a part of a path, such as a function's module, is no name that another could meet
    inside = {
        p: {m[0] for m in TOKEN.finditer(t) if not m[0].startswith(("--", '"')) and t[m.start() - 1 : m.start()] != "."} for p, t in antt.items()
    }
    present = set().union(*inside.values())
    # names of the kit's, which keep their spelling everywhere
    kits = set()
    for p, t in antt.items():
        for path, names in re.findall(r"^use (\S+?)\.?\{([^}]*)\}", t, re.M):
            if not path.startswith("Rattle.") or re.match(r"Rattle\.(std|core)\b", path):
                kits |= {n.strip().split(" as ")[0] for n in names.split(",")}

    def joined(name, plain):
        parts = camel(name).split("-")
        out = parts[0]
        for left, right in zip(parts, parts[1:]):
            out += ("-" if not plain and left in defined and right in defined else "_") + right
        return out

    turned, kept = LEMMAS | ALONE, []
    snake = {camel(w) for w in present if "-" not in w and camel(w) != w}

    def meets(a, b):
        return b in snake or any(a in words and b in words for words in inside.values())

    for n in sorted(set(items) | fields):
        if n not in turned and n not in kits and "-" in n and not n.startswith(("μ-", "Inv-")):
            b = joined(n, n in fields)
            turned[n] = b + "_lem" if b != n and meets(n, b) else b
    for w in present:
        if w not in turned and w not in kits and camel(w) != w:
            turned[w] = camel(w)
    by = collections.defaultdict(set)
    for a, b in turned.items():
        by[b].add(a)
    for a, b in list(turned.items()):
        others = sorted(by[b] - {a}) + [b] * (b in present)
        if a != b and any(a in words and o in words for words in inside.values() for o in others if o not in LEMMAS):
            kept.append((a, b, others))
            del turned[a]
    turned = {a: b for a, b in turned.items() if a != b}
    here = {n for n in local if n not in items and n not in fields}

    def word(w, proof):
        if w in turned and not (proof and w in here and camel(w) == w):
            return turned[w]
        return w if w.startswith("Need") else camel(w) if camel(w) != w and w not in [k[0] for k in kept] else w

    def comment(c, proof):
        c = re.sub(r"`([^`\n]*)`", lambda m: "`" + re.sub(WORD, lambda k: word(k[0], proof), m[1]) + "`", c)
        return re.sub(r"(?<![\w`'-])[a-z]+[a-z0-9]*[A-Z]\w*", lambda m: camel(m[0]), c)

    def turn(text, proof):
        def one(m):
            t = m[0]
            if t.startswith('"'):
                return t
            if t.startswith(("--", "//")):
                return comment(t, proof)
            return word(t, proof)
        return TOKEN.sub(one, text)

    count = 0
    for p in files(root, ".antt", ".rt", ".edit"):
        old = read(p)
        if p.endswith(".edit"):
            new = "\n".join(l if re.match(r"(file|#)", l) else turn(l, False) for l in old.split("\n"))
        else:
            new = turn(old, bool(OWN_PROOF.search(p)))
        if new != old:
            count += 1
            with open(p, "w", encoding="utf-8") as f:
                f.write(new)
    for a, b, others in kept:
        print(f"kept: {a} (not {b}: {', '.join(others)})")
    table = os.path.join(root, "respelled.tsv")
    if os.path.exists(table):
        with open(table, "w", encoding="utf-8") as f:
            f.writelines(f"{a}\t{b}\n" for a, b in sorted(turned.items()))
    print(f"respell: {len(turned)} names, {count} files")


if __name__ == "__main__":
    main(sys.argv[1] if len(sys.argv) > 1 else os.getcwd())
