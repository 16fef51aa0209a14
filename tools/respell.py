#!/usr/bin/env python3
"""Brings the names that specs/ and proofs/ declare to snake case, in every crate: `isMap` becomes `is_map`, `filled-all` becomes `filled_all`.

usage: respell.py [--check] [ROOT]     (ROOT: the repository, or this one)

It reads the names off the definitions, lemmas and fields of crates/*/specs and crates/*/proofs (the files of a function's own proof aside), and
respells each wherever it stands as a word in an .antt or .rt file below crates/. In a comment a name with a dash is respelled between backticks
alone, since English has such words. Types and modules keep their capital, Rust's items and strings their spelling. Where a new spelling stands in
the tree already, as another name or a variable, `TAKEN` says what the name is called in its place; a clash that it does not name stops the script
before it writes anything. --check writes nothing and prints what would change.
"""
import collections
import os
import re
import sys

DECLARED = re.compile(r"(?m)^[ \t]*(?:(?:abbrev|unfoldable|pub|record|data) )*([^\s(){}.,;:=|\[\]@\"]+)(?: *[({][^\n]*[)}])? : ")
WORD = re.compile(r"[^\s(){}.;,@\"«»\[\]`]+")
OWN_PROOF = re.compile(r"/Proof\.antt$")

# What stands in place of a spelling that something else has: a lemma that would have its function's name ends in `_lem`.
TAKEN = {
    name: name.replace("-", "_") + "_lem"
    for name in (
        "bench-shown",
        "eight-of",
        "factor-calls",
        "first-named",
        "in-turn",
        "is-identity",
        "is-map",
        "line-at",
        "line-room",
        "old-sheets",
        "refused-line",
        "row-divided",
        "row-start",
        "text-number",
    )
}
# A definition that port.py respelled wherever it could, but not where a lemma was spelled like it.
LEFT = {"lineAt": "line_at"}


def in_snake_case(name):
    words = re.sub(r"(?<=[a-z0-9])[A-Z]", lambda m: "_" + m[0].lower(), name)
    return words.replace("-", "_")


def files(root):
    for folder, dirs, names in os.walk(os.path.join(root, "crates")):
        dirs[:] = sorted(d for d in dirs if d != "out")
        for name in sorted(names):
            if name.endswith((".antt", ".rt")):
                yield os.path.join(folder, name)


def crate_of(path, root):
    return os.path.relpath(path, os.path.join(root, "crates")).split(os.sep)[0]


def parts(text, is_rust):
    """The text in pieces, each with its kind: code, comment or string."""
    mark = "//" if is_rust else "--"
    at, pieces = 0, []
    for m in re.finditer(r'"(?:[^"\\\n]|\\.)*"|(?<![^\s])' + mark + r"[^\n]*", text):
        pieces.append(("code", text[at:m.start()]))
        pieces.append(("string" if m[0].startswith('"') else "comment", m[0]))
        at = m.end()
    pieces.append(("code", text[at:]))
    return pieces


def declared(texts):
    found = set()
    for path, text in texts.items():
        if path.endswith(".antt") and not OWN_PROOF.search(path):
            code = "".join(t for kind, t in parts(text, False) if kind == "code")
            found.update(DECLARED.findall(code))
    return {n for n in found if re.match(r"[a-z]", n) and in_snake_case(n) != n and not n.startswith("invariant-") and not n.startswith("decreases-")}


def table_of(texts):
    own = declared(texts)
    words = collections.Counter()
    for path, text in texts.items():
        for kind, t in parts(text, path.endswith(".rt")):
            if kind == "code":
                words.update(WORD.findall(t))
    table, taken = {}, collections.defaultdict(list)
    for name in sorted(own):
        new = TAKEN.get(name, in_snake_case(name))
        table[name] = new
        taken[new].append(name)
    table.update({old: new for old, new in LEFT.items() if words[old]})
    clashes = [f"{new}: {' and '.join(olds)}" for new, olds in taken.items() if len(olds) > 1]
    alike = set(MET)
    for path, text in texts.items():
        if path.endswith(".rt"):
            alike.update(FUNCTION.findall(text) + LABEL.findall(text))
    clashes += [f"{new} (of {olds[0]}) stands {words[new]} times already" for new, olds in taken.items() if words[new] and new not in alike]
    return table, clashes


# Lemmas that port.py respelled, and that their definition would be spelled like now: in a crate that has both, the lemma ends in `_lem`.
MET = {"digit_at": "digitAt", "pair_found": "pairFound"}
# A new spelling that stands in the tree already cannot be mistaken for the name where it is a function of src/ (its module, its step in a proof) or the
# label of a clause; other words have to be looked at.
FUNCTION = re.compile(r"\bfn (\w+)")
LABEL = re.compile(r"\b(?:requires|ensures) (\w+) \{")


def respelled(text, is_rust, table):
    def word(m):
        return table.get(m[0], m[0])

    def in_comment(m):
        return WORD.sub(word, m[0])

    out = []
    for kind, t in parts(text, is_rust):
        if kind == "code":
            t = WORD.sub(word, t)
        elif kind == "comment":
            t = re.sub(r"`[^`]*`", in_comment, t)
            t = WORD.sub(lambda m: m[0] if "-" in m[0] else word(m), t)
        out.append(t)
    return "".join(out)


def main(argv):
    check = "--check" in argv
    rest = [a for a in argv if a != "--check"]
    root = rest[0] if rest else os.path.join(os.path.dirname(os.path.realpath(__file__)), "..")
    texts = {p: open(p, encoding="utf-8").read() for p in files(root)}
    table, clashes = table_of(texts)
    if clashes:
        print("\n".join(clashes), file=sys.stderr)
        return 1
    of_crate = collections.defaultdict(dict)
    for path, text in texts.items():
        for lemma, definition in MET.items():
            if lemma in DECLARED.findall(text) and definition in WORD.findall(text):
                of_crate[crate_of(path, root)][lemma] = lemma + "_lem"
    changed = 0
    for path, text in texts.items():
        new = respelled(text, path.endswith(".rt"), table | of_crate[crate_of(path, root)])
        if new != text:
            changed += 1
            if not check:
                with open(path, "w", encoding="utf-8") as f:
                    f.write(new)
    print(f"{len(table)} names respelled in {changed} files")
    return 0


if __name__ == "__main__":
    raise SystemExit(main(sys.argv[1:]))
