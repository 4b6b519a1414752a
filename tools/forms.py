#!/usr/bin/env python3
"""The places in crates/*/src that docs/DESIGN-PASS.md counts, point by point, in the files as they stand or as they were at a commit.

    python3 tools/forms.py [COMMIT] [POINT]
"""
import collections, difflib, re, subprocess, sys

CALL = re.compile(r'^\s*(pub )?(extern "C" )?fn (\w+)(<[^>]*>)?\((.*?)\)\s*(->\s*([^{]*?))?\s*(?=requires|ensures|\{)', re.S | re.M)


def sources(commit):
    """(crate, path, text) of every source file."""
    names = subprocess.run(['git', 'ls-tree', '-r', '--name-only', commit or 'HEAD', 'crates'], capture_output=True, text=True, check=True).stdout.split()
    if not commit:
        names = subprocess.run(['git', 'ls-files', 'crates'], capture_output=True, text=True, check=True).stdout.split()
    for name in sorted(n for n in names if re.match(r'crates/\w+/src/.*\.rt$', n)):
        text = subprocess.run(['git', 'show', f'{commit}:{name}'], capture_output=True, text=True, check=True).stdout if commit else open(name).read()
        yield name.split('/')[1], name, text


class Function:
    """A function: its crate, name, parameters, result, clauses and body."""

    def __init__(self, crate, path, text, found):
        self.crate, self.path, self.name = crate, path, found.group(3)
        self.line = text.count('\n', 0, found.start(3)) + 1
        self.parameters = [' '.join(p.split()) for p in re.split(r',(?![^<(\[]*[>)\]])', found.group(5)) if p.strip()]
        self.result = (found.group(7) or '').strip()
        opening = self.opening(text, found.end())
        self.clauses = text[found.end():opening]
        self.body = text[opening:self.closing(text, opening)]
        self.whole = text[found.start():opening] + self.body

    @staticmethod
    def opening(text, at):
        """The brace that opens the body: the first at the start of a line or after the signature, clauses left out."""
        while True:
            clause = re.compile(r'\s*(requires|ensures)[^{]*\{').match(text, at)
            if not clause:
                return text.index('{', at)
            at = Function.closing(text, clause.end() - 1)

    @staticmethod
    def closing(text, at):
        depth = 0
        for i in range(at, len(text)):
            depth += (text[i] == '{') - (text[i] == '}')
            if depth == 0:
                return i + 1
        return len(text)

    def where(self):
        return f'{self.path}:{self.line} {self.crate}::{self.name}'


def functions(files):
    for crate, path, text in files:
        bare = re.sub(r'//[^\n]*', lambda m: ' ' * len(m.group()), text)
        for found in CALL.finditer(bare):
            yield Function(crate, path, bare, found)


def lines(files, pattern):
    for crate, path, text in files:
        for number, line in enumerate(text.split('\n'), 1):
            if re.search(pattern, line) and not line.lstrip().startswith('//') and 'ghost use' not in line:
                yield f'{path}:{number} {line.strip()}'


def kinds(files, all_functions):
    """1: an enum of the shape of Option, a struct with a number beside its value, a function that gives a refusal number, a parameter that is a number for a kind."""
    for crate, path, text in files:
        text = re.sub(r'//[^\n]*', '', text)
        for found in re.finditer(r'enum (\w+)[^{]*\{([^}]*)\}', text):
            variants = [v.strip() for v in found.group(2).split(',') if v.strip() and not v.strip().startswith('//')]
            if len(variants) == 2 and sum('(' in v for v in variants) <= 1:
                yield f'{path} enum {found.group(1)}'
        for found in re.finditer(r'struct (\w+)[^{;]*\{([^}]*)\}', text):
            if re.search(r'\bnumber: u32', found.group(2)):
                yield f'{path} struct {found.group(1)}: a number beside a value'
    for f in all_functions:
        if f.result in ('u32', 'u8') and re.search(r'_refusal\b|number_after|first \(', f.clauses):
            yield f'{f.where()} gives a refusal number'
        for p in f.parameters:
            if re.match(r'(mut )?(route\d?|which|number|earlier|own|digit): (u32|usize|u8)$', p):
                yield f'{f.where()} takes {p}'


def shape(f):
    """The function's words, each name as the number of its first place, each literal as 0."""
    words = re.findall(r'\w+|[^\w\s]', f.whole)
    seen = {}
    return tuple('0' if w[0].isdigit() else str(seen.setdefault(w, len(seen))) if w[0].isalpha() or w[0] == '_' else w for w in words), words


def twins(all_functions):
    """2: two functions of a crate, of three lines or more, whose words are nine in ten the same but for literals and a suffix of their names."""
    by_crate = collections.defaultdict(list)
    for f in all_functions:
        by_crate[f.crate].append(f)
    for crate, members in by_crate.items():
        for i, f in enumerate(members):
            for g in members[i + 1:]:
                if f.body.count('\n') < 3 or g.body.count('\n') < 3:
                    continue
                a, b = (re.findall(r'\w+|[^\w\s]', re.sub(r'\b\d+\b', '0', h.body)) for h in (f, g))
                if len(a) > 25 and difflib.SequenceMatcher(None, a, b, autojunk=False).ratio() >= 0.85:
                    yield f'{f.where()} and {g.name}'


def loops(files, all_functions):
    """3: `while`, and with it whether it counts an index by hand."""
    return lines(files, r'^\s*while ')


def by_hand(files, all_functions):
    """4: a conversion by `as`, a function that does what a library method, a derive or From does."""
    yield from lines(files, r' as (u8|u16|u32|u64|usize)\b')
    for f in all_functions:
        if f.name in ('wide', 'word', 'smaller', 'excess', 'rounded_up', 'copy', 'copy_part', 'clear', 'clear_part', 'exceeds', 'in_table', 'place', 'plus', 'value', 'none', 'eight_zeros',
                      'whole_product', 'power_of_two', 'places', 'work_places', 'decimal_places', 'write_bytes', 'write_digit', 'write_decimal', 'effective_length'):
            yield f'{f.where()} by hand'
    for line in lines(files, r'\b(\w+): \1,$'):
        yield line


def together(all_functions):
    """5: two neighbouring parameters that three or more functions take, and a conjunct of `requires` that three or more have."""
    pairs, facts = collections.defaultdict(list), collections.defaultdict(list)
    for f in all_functions:
        for i in range(len(f.parameters) - 1):
            pairs[', '.join(f.parameters[i:i + 2])].append(f)
        for clause in re.findall(r'requires[^{]*\{(.*?)\}\s*(?=requires|ensures|\{|$)', f.clauses, re.S):
            for fact in re.split(r' × ', ' '.join(clause.split())):
                facts[fact.strip(' ()')].append(f)
    for table, word in ((pairs, 'parameters'), (facts, 'fact')):
        for key, found in sorted(table.items(), key=lambda e: -len(e[1])):
            if len({(f.crate, f.name) for f in found}) >= 3:
                yield f'{word} {key}: {len(found)} functions, in {", ".join(sorted({f.crate for f in found}))}'


def indices(all_functions):
    """6: a function that takes a list and beside it places or a length in it."""
    for f in all_functions:
        if any(re.search(r'\[\w+\]', p) for p in f.parameters):
            beside = [p for p in f.parameters if re.match(r'(mut )?(n|m|k|a|b|t|s|at|from|to|count|low|first|length|c|e|i|end|places|rows|more): usize$', p)]
            if beside:
                yield f'{f.where()} takes a list and {", ".join(beside)}'


def switches(all_functions):
    """7: a parameter that says which step to run, and a chain of tests of one number."""
    for f in all_functions:
        for p in f.parameters:
            if p.endswith(': bool'):
                yield f'{f.where()} takes {p}'
        if re.search(r'if (\w+) == \d[^}]*\}\s*if \1 == \d', f.body):
            yield f'{f.where()} tests a number again and again'


def main():
    words = sys.argv[1:]
    point = int(words.pop()) if words and re.fullmatch(r'\d', words[-1]) else 0
    files = list(sources(words[0] if words else ''))
    found = list(functions(files))
    rules = {1: lambda: kinds(files, found), 2: lambda: twins(found), 3: lambda: loops(files, found), 4: lambda: by_hand(files, found),
             5: lambda: together(found), 6: lambda: indices(found), 7: lambda: switches(found)}
    for number, rule in rules.items():
        if point in (0, number):
            places = list(rule())
            print(f'point {number}: {len(places)}')
            if point:
                print('\n'.join(places))


main()
