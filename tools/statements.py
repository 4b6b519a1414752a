#!/usr/bin/env python3
"""The definitions and theorems of crates/*/specs and of the files right in crates/*/proofs that went, changed or came since a commit.

    python3 tools/statements.py COMMIT [FOLDER]     names; with --text old and new statements too

A statement is what stands up to the next line that is not further in, the parameters of its module before it; of a definition or record its body too.
"""
import collections, pathlib, re, subprocess, sys


def files(folder, commit):
    """(path, text) of each file of laws, at a commit or as it stands."""
    run = lambda *words: subprocess.run(["git", "-C", folder, *words], capture_output=True, text=True, check=True).stdout
    names = run("ls-tree", "-r", "--name-only", commit, "crates") if commit else run("ls-files", "crates")
    for name in names.split():
        if re.match(r"crates/\w+/(specs|proofs)/[A-Z]\w*\.antt$", name) and not name.endswith("/Lib.antt"):
            yield name, run("show", f"{commit}:{name}") if commit else pathlib.Path(folder, name).read_text()


def indent(line):
    return len(line) - len(line.lstrip())


def statements(text):
    """Each public name with the parameters of its modules and its statement."""
    lines, found, modules, i = text.split("\n"), {}, [], 0
    while i < len(lines):
        line = lines[i]
        if not line.strip() or line.lstrip().startswith("--"):
            i += 1
            continue
        while modules and indent(line) <= modules[-1][0]:
            modules.pop()
        if re.match(r"\s*module \S+", line):
            header, j = line.strip(), i + 1
            while not re.search(r"\bwhere\s*$", header) and j < len(lines):
                header, j = header + " " + lines[j].strip(), j + 1
            modules.append((indent(line), header))
            i = j
            continue
        named = re.match(r"\s*(abbrev |unfoldable )?pub (record |data )?(\S+)\s", line)
        if not named or re.match(r"\s*pub (use|mod)\b", line):
            i += 1
            continue
        kind, name, statement, j = named.group(1), named.group(3), line.strip(), i + 1
        further = lambda k: k < len(lines) and lines[k].strip() and not lines[k].lstrip().startswith("--") and indent(lines[k]) > indent(line)
        body = lambda k: kind and k < len(lines) and re.match(rf"\s*(unfolding|{re.escape(name)}\b)", lines[k]) and indent(lines[k]) == indent(line)
        while further(j) or body(j):
            statement, j = statement + "\n" + lines[j].strip(), j + 1
        found[name] = (" | ".join(header for _, header in modules), statement)
        i = j
    return found


def collect(folder, commit):
    return {(name.split("/")[1], name.split("/")[-1][:-5], key): value for name, text in files(folder, commit) for key, value in statements(text).items()}


def main():
    words = [word for word in sys.argv[1:] if word != "--text"]
    folder = words[1] if len(words) > 1 else "."
    old, new = collect(folder, words[0]), collect(folder, "")
    flat = lambda value: " ".join(" ".join(value).split())
    places = collections.defaultdict(list)
    for key in new:
        if key not in old:
            places[key[2]].append(key)
    for key in sorted(old):
        now = key if key in new else next((k for k in places[key[2]] if k[0] == key[0]), None)
        if now and flat(new[now]) == flat(old[key]):
            continue
        print(f"{'changed' if now else 'gone'} {key[0]}/{key[1]}: {key[2]}")
        if "--text" in sys.argv:
            print("    old", *old[key], sep="\n        ")
            if now:
                print("    new", *new[now], sep="\n        ")


main()
