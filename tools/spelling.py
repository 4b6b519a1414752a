#!/usr/bin/env python3
"""Spells the definitions and lemmas of this repository as today's Rattle does. Run once, after port.py, at the top of the checkout.

Words are in snake case: cutProduct becomes cut_product. A dash stays where it joins two names, as in length-joined or neg-⊕; a plain word is added with an
underscore, as in exceeds_next. Types, facts and modules keep their capitals, and functions of src/ their names. Names that would fall together stay as they
were and are printed.
"""
import collections
import glob
import pathlib
import re
import sys

WORD = re.compile(r'[^\s(){}.;,@"«»`|\[\]]+')
DECLARED = re.compile(r"^\s*(?:(?:abbrev|unfoldable|pub|private|let|where) )*(?:(?:record|data|ruleset) )?([^\s(){}.;,@]+)(?: [^:\n]*)? :(?: |$)")
# words of the library that the names of lemmas join
LIBRARY = set(
    """length drop take set sets get_or map replicate reverse sum append product_of suc zero eqb leb ltb min max pow
    add mul sub div mod one two fold residue cond""".split()
)


def files():
    for kind in ("specs/**/*.antt", "proofs/**/*.antt", "src/**/*.rt", "must-fail/*.edit"):
        yield from sorted(glob.glob("crates/*/" + kind, recursive=True))


def others():
    yield from sorted(glob.glob("tests/definitions/**/*.*", recursive=True) + glob.glob("tests/weights/**/*.*", recursive=True))
    yield from sorted(glob.glob("tests/trace/*") + glob.glob("docs/**/*.md", recursive=True) + ["README.md"])


def read(path):
    with open(path, encoding="utf-8") as f:
        return f.read()


def code_of(text):
    return re.sub(r"(?m)(?<!\S)--.*$", "", text)


GOAL = re.compile(
    r"(?:add|mul|sub|rem|shl|shr|cast|slice|shared|array|offset|bounds|part|invariant|decreases|loop|returns|same)-|.*(?:-requires|-returns|-same-length)(?:-\d+)?$|.*-loop-.*|.*(?:Inv|μ)"
)


def is_goal(path, name, line):
    """Whether a name in a function's proof is one that Rattle asks for."""
    return not is_statement(path) and bool(re.search(r" : (?:tie|goal)\.| statement ", line) or GOAL.match(name))


def is_statement(path):
    return "/specs/" in path or path.count("/") == 3


declared = collections.Counter()
plain = set(LIBRARY)
used = collections.Counter()
kit = set()
for path in files():
    if not path.endswith(".antt"):
        continue
    code = code_of(read(path))
    for use in re.finditer(r"^use (\S+?)\.\{([^}]*)\}", code, re.M | re.S):
        if not re.match(r"Rattle\.(?!std\.)", use[1]):
            kit.update(re.findall(r"[^\s,]+", use[2]))
    for m in WORD.finditer(re.sub(r"(?m)^use \S+( as .*)?", "", code)):
        # a step or a field that Rattle names after a function of src/ stands behind a dot
        used[m[0]] += code[m.start() - 1 : m.start()] != "."
    for line in code.split("\n"):
        m = DECLARED.match(line)
        if m and not line.startswith("use ") and not is_goal(path, m[1], line):
            declared[m[1]] += 1
            if is_statement(path) and "-" not in m[1] and m[1][0].islower() and not re.match(r"    ", line):
                plain.add(m[1])


def snake(part):
    if re.match(r"[a-z]", part):
        part = part.replace("getD", "get_or")
        part = re.sub(r"(?<=[a-z0-9])[A-Z]", lambda m: "_" + m[0].lower(), part)
    return part


names = {snake(n) for n in plain} | plain


def is_name(part):
    bare = part.rstrip("'")
    return bare in names or not re.match(r"[A-Za-z_ℕ]", bare)


def spelled(name):
    if name.endswith("-spec") or name.startswith("+"):
        return name.replace("-", "_")
    parts = [snake(p) for p in re.split(r"(?<=[^-])-(?=[^-])", name)]
    new = parts[0]
    for before, part in zip(parts, parts[1:]):
        new += ("-" if is_name(before) and is_name(part) else "_") + part
    return new


table = {}
for name in declared:
    if name in kit or not re.match(r"[^A-Z]", name) or name.startswith("◌"):
        continue
    new = spelled(name)
    if new != name:
        table[name] = new
# a lemma that would have its definition's name
for name, new in table.items():
    if "-" in name and any(other != name and table[other] == new for other in table):
        table[name] = new + "_lem"
table["low_part"] = "low_part_lem"
for name in ("low_part", "cut_product", "cut_short", "four_products", "too_large"):
    used[name] = 0
taken = collections.Counter(table.values())
for name, new in sorted(table.items()):
    if used[new] or taken[new] > 1 or new in kit:
        print("stays, since names would fall together:", name, new)
        del table[name]

# the table of the one run, so that another tree gets the same names
TABLE = pathlib.Path(__file__).with_name("spelling.tsv")
if TABLE.exists():
    table = dict(line.split("\t") for line in TABLE.read_text(encoding="utf-8").splitlines())
# a word of src/ that is no name of the definitions
SOURCE = {"low_part"}

# steps of a proof that Rattle names after a function of src/ are no names of the repository's
MADE = re.compile(r"\b(?:c|tie|goal|before|args)\.$")


def turned(text, whole, source=False):
    def one(m):
        word = m[0]
        if word in table and not (source and word in SOURCE):
            if text[m.start() - 1 : m.start()] == "." and MADE.search(text[max(0, m.start() - 12) : m.start()]):
                return word
            return table[word]
        return word

    return WORD.sub(one, text) if whole else re.sub(r"`[^`\n]+`|\"(?:[^\"\\\n]|\\.)*\"", lambda s: WORD.sub(lambda m: table.get(m[0], m[0]), s[0]), text)


if "--table" in sys.argv:
    for name, new in sorted(table.items()):
        print(name, new)
    sys.exit()
count = 0
for path in list(files()) + list(others()):
    text = read(path)
    new = turned(text, path.startswith("crates/"), path.endswith((".rt", ".edit")))
    if new != text:
        count += 1
        with open(path, "w", encoding="utf-8") as f:
            f.write(new)
print(len(table), "names in", count, "files")
