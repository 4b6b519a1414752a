"""Wrong headers, which the tests of the header must refuse.

Each is the header with one edit; every constant, macro and struct of it is edited, every function that it declares, and those that it
defines. tests/c/declared.c and tests/c/header.c are built with the edited header and must name what was edited; with the header as it is
they name nothing.

Usage: wrong_headers.py ARCHIVE
"""

import concurrent.futures
import pathlib
import re
import subprocess
import sys
import tempfile

TESTS = pathlib.Path(__file__).resolve().parent
HEADER = TESTS.parents[1] / "include" / "ruhitapo.h"
# what is built with the edited header
EDITED = ["declared", "header"]
MAIN = """
#include "cases.h"
int main(void) { call_begin(); header_make(); return 0; }
"""
# each macro as it is, and then wrong
MACROS = {
    "WORK_PLACES(n, m)": [
        "(128 * (size_t)(n) + 8 * (size_t)(m))",
        "(127 * (size_t)(n) + 8 * (size_t)(m))",
        "(129 * (size_t)(n) + 8 * (size_t)(m))",
        "(128 * (size_t)(n) + 7 * (size_t)(m))",
        "(128 * (size_t)(n) + 9 * (size_t)(m))",
        "(128 * (size_t)(m) + 8 * (size_t)(n))",
        "(128 * (size_t)(n) + 8 * (size_t)(m) - 1)",
        "(128 * (size_t)(n) + 8 * (size_t)(m) + 1)",
        "(128 * (n) + 8 * (m))",
        "(128 * (size_t)n + 8 * (size_t)m)",
        "128 * (size_t)(n) + 8 * (size_t)(m)",
    ],
    "CYCLE_WORK_PLACES(n, m)": [
        "(144 * (size_t)(n) + 8 * (size_t)(m))",
        "(128 * (size_t)(n) + 8 * (size_t)(m))",
        "(145 * (size_t)(n) + 8 * (size_t)(m))",
        "(144 * (size_t)(n) + 7 * (size_t)(m))",
        "(144 * (size_t)(m) + 8 * (size_t)(n))",
        "(144 * (size_t)(n) + 8 * (size_t)(m) + 1)",
        "(144 * (n) + 8 * (m))",
        "(144 * (size_t)n + 8 * (size_t)m)",
        "144 * (size_t)(n) + 8 * (size_t)(m)",
    ],
    "TEXT_BYTES(n)": [
        "(29 + 11 * (size_t)(n))",
        "(28 + 11 * (size_t)(n))",
        "(30 + 11 * (size_t)(n))",
        "(29 + 10 * (size_t)(n))",
        "(29 + 12 * (size_t)(n))",
        "(29 + 11 * (n))",
        "(29 + 11 * (size_t)n)",
        "29 + 11 * (size_t)(n)",
        "((n) == 4096 ? 45085 : 28 + 11 * (size_t)(n))",
    ],
}
FIELDS = {
    "answer": ["uint32_t number", "uint64_t weight"],
    "chain": ["uint32_t modulus", "size_t order", "uint32_t done"],
    "open_answer": ["uint32_t number", "uint64_t weight", "ruhitapo_chain chain"],
    "cycle_answer": ["uint32_t number", "uint64_t weight", "ruhitapo_chain chain"],
    "prime_answer": ["uint32_t number", "uint32_t prime"],
    "text_answer": ["uint32_t number", "size_t count"],
}
# each type, and then wrong ones: of another size, with a sign
TYPES = {
    "uint32_t": ["uint16_t", "int32_t"],
    "uint64_t": ["uint16_t", "int64_t"],
    "size_t": ["uint16_t", "int64_t"],
    "ruhitapo_chain": ["uint64_t"],
}
# parts of what a function passes on, and then wrong
CYCLE_PASSED = [
    ("chain.modulus, chain.order, chain.done,", "chain.done, chain.order, chain.modulus,"),
    ("chain.modulus, chain.order, chain.done,", "chain.modulus, chain.order, 0,"),
    ("chain.modulus, chain.order, chain.done,", "chain.modulus, running_count, chain.done,"),
    ("chain.modulus, chain.order, chain.done,", "7, chain.order, chain.done,"),
    ("chain.done, route,", "route, chain.done,"),
    ("chain.done, route,", "chain.done, 1,"),
    (" list, list_count,", " list, list_count / 2,"),
    (" list, list_count,", " running, list_count,"),
    ("running, running_count,", "running, chain.order,"),
    ("work, work_count);", "work, RUHITAPO_CYCLE_WORK_PLACES(chain.order, list_count));"),
    ("running, running_count, work, work_count);", "work, work_count, running, running_count);"),
]
# the functions that the header defines
PASSED = {
    "ruhitapo_cycle": CYCLE_PASSED,
    "ruhitapo_cycle_blocks": [
        *CYCLE_PASSED,
        ("route, block,", "block, route,"),
        ("route, block,", "route, RUHITAPO_BLOCK_LENGTH,"),
        ("route, block,", "route, route,"),
        ("route, block,", "route, list_count,"),
        ("route, block,", "route, block + 1,"),
        ("route, block,", "route, (uint32_t)block,"),
        ("route, block,", "route, block > RUHITAPO_LONGEST_BLOCK ? RUHITAPO_LONGEST_BLOCK : block,"),
        ("blocks_numbers(chain.modulus, chain.order, chain.done, route, block,", "numbers(chain.modulus, chain.order, chain.done, route,"),
    ],
}
# the first argument of each function that the header declares, and others; then wrong
DECLARED = {
    "ruhitapo_compose": [("uint32_t route,", "uint64_t route,")],
    "ruhitapo_compose_blocks": [
        ("uint32_t route,", "uint64_t route,"),
        ("size_t block,", "uint32_t block,"),
        ("uint32_t route, size_t block,", "size_t block, uint32_t route,"),
        ("size_t block, uint32_t p,", "uint32_t p, size_t block,"),
    ],
    "ruhitapo_reverse": [("uint32_t p,", "uint64_t p,")],
    "ruhitapo_open": [("uint32_t p,", "uint64_t p,")],
    "ruhitapo_cycle_numbers": [("uint32_t modulus,", "uint64_t modulus,")],
    "ruhitapo_cycle_blocks_numbers": [
        ("uint32_t modulus,", "uint64_t modulus,"),
        ("size_t block,", "uint32_t block,"),
        ("uint32_t route, size_t block,", "size_t block, uint32_t route,"),
    ],
    "ruhitapo_prime": [("uint32_t index", "uint64_t index")],
    "ruhitapo_render": [("uint32_t number,", "uint64_t number,")],
}


def once(text, old, new):
    if text.count(old) != 1:
        sys.exit(f"the header does not have just one {old!r}")
    return text.replace(old, new)


def exchanged(text):
    """Each two neighbours of an enum with their numbers exchanged."""
    for enum in re.findall(r"^enum {(.*?)^}", text, re.MULTILINE | re.DOTALL):
        constants = re.findall(r"(\w+) = (\d+)", enum)
        for (name, number), (next_name, next_number) in zip(constants, constants[1:]):
            edited = once(text, f"{name} = {number}", f"{name} = {next_number}")
            yield (name, next_name), once(edited, f"{next_name} = {next_number}", f"{next_name} = {number}")


def wrong_limits(text):
    for name, number in re.findall(r"^#define (\w+) (\d+)u$", text, re.MULTILINE):
        for wrong in (int(number) - 1, int(number) + 1):
            yield (name,), once(text, f"#define {name} {number}u\n", f"#define {name} {wrong}u\n")


def wrong_macros(text):
    if re.findall(r"^#define RUHITAPO_(\w+\(.*?\))", text, re.MULTILINE) != list(MACROS):
        sys.exit("the header has other macros")
    for macro, (body, *wrongs) in MACROS.items():
        lead = f"#define RUHITAPO_{macro} "
        for wrong in wrongs:
            yield ("RUHITAPO_" + macro.split("(")[0],), once(text, f"{lead}{body}\n", f"{lead}{wrong}\n")


def wrong_structs(text):
    """Each two neighbours exchanged, and each field of another type."""
    if re.findall(r"^typedef struct ruhitapo_(\w+)", text, re.MULTILINE) != list(FIELDS):
        sys.exit("the header has other structs")
    for name, fields in FIELDS.items():
        wrongs = [[*fields[:at], fields[at + 1], fields[at], *fields[at + 2 :]] for at in range(len(fields) - 1)]
        for at, field in enumerate(fields):
            kind, field_name = field.split()
            wrongs += [[*fields[:at], f"{wrong} {field_name}", *fields[at + 1 :]] for wrong in TYPES[kind]]
        for wrong in wrongs:
            yield (f"ruhitapo_{name}",), once(text, struct(name, fields), struct(name, wrong))


def struct(name, fields):
    return "{\n" + "".join(f"    {field};\n" for field in fields) + f"}} ruhitapo_{name};"


def wrong_declarations(text):
    found = re.findall(r"^ruhitapo_\w+ (\w+)\((.*?)\);", text, re.MULTILINE | re.DOTALL)
    if [name for name, _ in found] != list(DECLARED):
        sys.exit("the header declares other functions")
    for name, arguments in found:
        for part, wrong in DECLARED[name]:
            yield (name,), once(text, f" {name}({arguments})", f" {name}({once(arguments, part, wrong)})")


def wrong_functions(text):
    found = re.findall(r"^static inline \w+ (\w+).*?return (.*?;)", text, re.MULTILINE | re.DOTALL)
    if [name for name, _ in found] != list(PASSED):
        sys.exit("the header defines other functions")
    for name, call in found:
        for part, wrong in PASSED[name]:
            yield (name,), once(text, call, once(" ".join(call.split()), part, wrong))
        yield (name,), once(text, f"return {call}", f"ruhitapo_cycle_answer answer = {call} answer.chain = chain; return answer;")


def wrong_headers(text):
    yield from exchanged(text)
    yield from wrong_limits(text)
    yield from wrong_macros(text)
    yield from wrong_structs(text)
    yield from wrong_declarations(text)
    yield from wrong_functions(text)


def compiled(source, include, target):
    command = ["gcc", "-std=c99", "-O2", f"-I{include}", f"-I{TESTS}", "-c", "-o", target, source]
    subprocess.run(command, check=True)
    return target


def differences(room, text, others, archive):
    """What the tests of the header name when they are built with this one."""
    room.mkdir()
    (room / HEADER.name).write_text(text, encoding="utf-8")
    own = [compiled(TESTS / f"{name}.c", room, room / f"{name}.o") for name in EDITED]
    subprocess.run(["gcc", "-o", room / "tests", *own, *others, archive], check=True)
    done = subprocess.run([room / "tests"], capture_output=True, text=True)
    return re.findall(r"^DIFFERENCE in (.*)$", done.stdout, re.MULTILINE)


def refused(edited, named):
    """Everything that was edited is named, as a whole word; where nothing was, nothing is."""
    return all(any(re.search(rf"\b{name}\b", line) for line in named) for name in edited) and bool(named) == bool(edited)


def main(archive):
    text = HEADER.read_text(encoding="utf-8")
    cases = [((), text), *wrong_headers(text)]
    failures = 0
    with tempfile.TemporaryDirectory() as name, concurrent.futures.ThreadPoolExecutor() as pool:
        room = pathlib.Path(name)
        (room / "main.c").write_text(MAIN, encoding="utf-8")
        sources = [room / "main.c", *(source for source in TESTS.glob("*.c") if source.stem not in (*EDITED, "main"))]
        others = [compiled(source, HEADER.parent, room / f"{source.stem}.o") for source in sources]
        found = pool.map(lambda at: differences(room / str(at), cases[at][1], others, archive), range(len(cases)))
        for (edited, _), named in zip(cases, found):
            if not refused(edited, named):
                failures += 1
                print(f"edited: {' and '.join(edited) or 'nothing'}; differences: {named}")
    print(f"{len(cases) - 1} wrong headers, {failures} failures")
    return failures > 0


if __name__ == "__main__":
    sys.exit(main(*sys.argv[1:]))
