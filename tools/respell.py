#!/usr/bin/env python3
"""Brings the names of this repository's own definitions and lemmas to snake case.

usage: python3 tools/respell.py        at the top of the repository, once, right after port.py

A name of specs/ or of a lemma file of proofs/ that has a capital letter or a dash in it gets underscores instead:
`newerOf` becomes `newer_of`, `below-more` becomes `below_more`. Where a definition and a lemma would fall together, the lemma
gets `_lem` after its name. Functions of src/, types, modules, strings, exported names, inputs and outputs keep their names, and so do
names of the library, wherever a file imports one that is spelled alike. `--names` prints the pairs and changes nothing.
"""
import collections
import glob
import re
import sys

# What would fall together with a name of another meaning.
CHOSEN = {
    "givenUp": "given_up_count",
    "in-flight": "packet_in_flight",
    "is-move": "is_move_lem",
    "is-number": "is_number_lem",
    "joinedBy": "joined_as",
    "keptBy": "kept_from",
    "kind-of": "kind_of_lem",
    "next-from": "next_from_lem",
    "notValid": "not_valid_test",
    "pointAt": "access_point_at",
    "put-back": "put_back_lem",
    "saidIn": "said_of",
    "fieldsIn": "fields_of_octets",
    "get_d_set": "get_or_set",
    "Given-to": "GivenTo",
}
DECLARED = re.compile(r"^\s*(?:pub |abbrev |unfoldable |data |record )*([^\s:(){}\[\],;|]+)(?:\s*\{[^}]*\})?\s*:\s")
IMPORT = re.compile(r"\s*(?:ghost )?(?:pub )?use ([^\s{}]+)\.\{([^}]*)\}")
NAME = re.compile(r"[^\s(){}\[\],;.:|«»⌜⌝\"`=]+")
CODE_TEXT = re.compile(r'b?"(?:[^"\\]|\\.)*"|b?\'(?:[^\'\\]|\\.)\'')


def files(*patterns):
    return sorted(f for p in patterns for f in glob.glob(p, recursive=True) if "/out/" not in f)


def snake(name):
    s = name.replace("getD", "get_or")
    s = re.sub(r"(?<=[a-z0-9])([A-Z])", lambda m: "_" + m.group(1).lower(), s)
    return s.replace("-", "_")


def declared():
    found = collections.defaultdict(set)
    for f in files("crates/*/specs/**/*.antt", "crates/*/proofs/*.antt"):
        for line in open(f, encoding="utf-8"):
            m = None if line.lstrip().startswith("--") else DECLARED.match(line)
            if m:
                found[m.group(1)].add(f)
    return found


def pairs():
    new = {}
    for name in declared():
        if name in CHOSEN:
            new[name] = CHOSEN[name]
        elif name[0].isupper():
            continue
        elif "-" in name or re.search(r"[a-z0-9][A-Z]", name):
            new[name] = snake(name)
    for old in [n for n in new if "-" in n]:
        twin = [n for n in new if n != old and new[n] == new[old]]
        if twin:
            new[old] += "_lem"
    return new


def taken(text):
    """Names that a file imports from the library."""
    out = set()
    for line in text.split("\n"):
        m = IMPORT.match(line)
        if m and not re.match(r"Rattle\.(?!std\b)", m.group(1)):
            out |= {n.strip().split(" as ")[0] for n in m.group(2).split(",")}
    return out


def turned(text, new, keep):
    return NAME.sub(lambda m: new[m.group(0)] if m.group(0) in new and m.group(0) not in keep else m.group(0), text)


def turned_code(line, new, keep):
    """A line of Rattle source: its strings stay."""
    out, at = [], 0
    for m in CODE_TEXT.finditer(line):
        out += [turned(line[at : m.start()], new, keep), m.group(0)]
        at = m.end()
    return "".join(out + [turned(line[at:], new, keep)])


def turned_line(line, new, keep, comment):
    """A comment's words stay, but for names between backticks."""
    at = line.find(comment)
    if at < 0:
        return turned_code(line, new, keep) if comment == "//" else turned(line, new, keep)
    code, said = line[:at], line[at:]
    code = turned_code(code, new, keep) if comment == "//" else turned(code, new, keep)
    return code + re.sub(r"`[^`]*`", lambda m: turned(m.group(0), new, keep), said)


def main():
    new = pairs()
    if "--names" in sys.argv:
        for old in sorted(new):
            print(old, new[old])
        return
    for f in files("crates/*/specs/**/*.antt", "crates/*/proofs/**/*.antt", "crates/*/src/**/*.rt"):
        text = open(f, encoding="utf-8").read()
        comment = "//" if f.endswith(".rt") else "--"
        keep = taken(text)
        after = "\n".join(turned_line(line, new, keep, comment) for line in text.split("\n"))
        if after != text:
            open(f, "w", encoding="utf-8").write(after)


main()
