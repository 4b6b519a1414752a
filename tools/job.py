#!/usr/bin/env python3
"""Writes a job file from readable words, and shows a job file in those words.

  job.py write FILE WORDS    writes the job that the words state
  job.py write FILE          the same, with the words on standard input
  job.py show FILE           prints the words of a job file, and what the job program will answer if it refuses it
  job.py --help              prints this

FILE may be -, which is standard output for write and standard input for show.

The words, in any order and on any number of lines; # begins a comment that ends with the line:

  route R          1, 2, 3 or 4, or by name: horner, ranged, bernstein, kinoshita-li
  modulus P        the modulus
  order N          the result is cut to powers below N
  outer C C ...    the outer list, the coefficient of power 0 first; it may be empty
  inner C C ...    the inner list, likewise

These five make a file of the header, the outer list and the inner list. Other layouts take more words:

  outer-offset B   the outer list begins at byte B of the file and not at byte 28
  inner-offset B   the inner list begins at byte B and not where the outer list ends
  outer-count K    in place of outer: the header states K numbers, and no list is written
  inner-count K    in place of inner: likewise
  spare B V V ...  bytes of the values V, 0 to 255, from byte B on; may be given several times

Numbers are decimal, from 0 to 4294967295. Lists and spare bytes may overlap where they agree. Bytes that no word states are 0.
A job that the job program refuses is written like any other, and a note on standard error says why it will be refused.
What show prints of a file with a whole header gives the same file again, byte for byte.

Exit status: 0 done; 1 the file cannot be read or written, or is shown and has no whole header or lists (the job program
answers 12 or 13); 2 wrong use or a wrong word.

Example: job.py write case.job route horner modulus 7 order 4 outer 1 2 3 inner 0 1 1
"""

import difflib
import re
import struct
import sys

from job_file import HEADER, ROUTES, refusal, words_of

FIXED = ("route", "modulus", "order")
NEEDED = (*FIXED, "outer", "inner")
LAYOUT = ("outer-offset", "inner-offset", "outer-count", "inner-count")
WORDS = (*NEEDED, *LAYOUT, "spare")
LARGEST = 2**32 - 1
# the most bytes of a file that is written or shown, and of the words that state one
LONGEST = 65536
LONGEST_WORDS = 16 * LONGEST


class WrongWord(Exception):
    """A word or a use that cannot be understood."""


class BadFile(Exception):
    """A file that cannot be read, written or shown."""


class Entry:
    """A word with the place where it stands and the values that follow it."""

    def __init__(self, place, word):
        self.place, self.word, self.values = place, word, []


def quoted(text):
    """The text as it is shown in a message: printable and not long."""
    return ascii(text if len(text) <= 40 else text[:37] + "...")


def tokens_of_lines(text):
    """Each token with its line."""
    for count, line in enumerate(text.split("\n"), 1):
        for token in line.split("#", 1)[0].split():
            yield f"line {count}", token


def tokens_of_arguments(arguments):
    """Each token with its place among the words of the command."""
    tokens = " ".join(arguments).split()
    return [(f"word {count}", token) for count, token in enumerate(tokens, 1)]


def unknown(place, token, before):
    if not token[0].isalpha():
        return WrongWord(f"{place}: {quoted(token)} stands before any word; expected one of {', '.join(WORDS)}")
    near = difflib.get_close_matches(token[:40], WORDS, 1)
    perhaps = f" (perhaps {near[0]}?)" if near else ""
    after = f" after {before.word}; expected a number or" if before else "; expected"
    return WrongWord(f"{place}: unknown word {quoted(token)}{perhaps}{after} one of {', '.join(WORDS)}")


def entries_of(tokens):
    """The words, each with its values. What begins with a letter is a word, except for the name of a route."""
    entries = []
    for place, token in tokens:
        last = entries[-1] if entries else None
        named_route = last is not None and last.word == "route" and not last.values
        if token in WORDS:
            entries.append(Entry(place, token))
        elif last is None or token[0].isalpha() and not named_route:
            raise unknown(place, token, last)
        else:
            last.values.append((place, token))
    return entries


def number(word, place, token, most=LARGEST):
    if not re.fullmatch("[0-9]+", token):
        raise WrongWord(f"{place}: {word} has {quoted(token)}; expected a whole number from 0 to {most}")
    digits = token.lstrip("0") or "0"
    if len(digits) > len(str(most)) or int(digits) > most:
        bound = "does not fit 32 bits" if most == LARGEST else "is too large"
        raise WrongWord(f"{place}: {word} has {quoted(token)}, which {bound}; expected a number from 0 to {most}")
    return int(digits)


def route_number(place, token):
    if token in ROUTES:
        return ROUTES[token]
    if token[0].isalpha():
        names = ", ".join(ROUTES)
        raise WrongWord(f"{place}: route has the unknown name {quoted(token)}; expected a number or one of {names}")
    return number("route", place, token)


def value_of(entry):
    """The number of a word that takes one, the list of a word that takes several."""
    if entry.word in ("outer", "inner"):
        return [number(entry.word, *value) for value in entry.values]
    if len(entry.values) != 1:
        raise WrongWord(f"{entry.place}: {entry.word} has {len(entry.values) or 'no'} values; expected one number")
    if entry.word == "route":
        return route_number(*entry.values[0])
    return number(entry.word, *entry.values[0])


def spare_piece(entry):
    """The bytes of a spare entry, with where they stand."""
    if len(entry.values) < 2:
        found = "a place and no bytes" if entry.values else "no values"
        raise WrongWord(f"{entry.place}: spare has {found}; expected the place of the first byte, and the bytes")
    first = number("spare", *entry.values[0])
    return entry.place, "spare", first, bytes(number("spare", *value, most=255) for value in entry.values[1:])


def collected(entries):
    """The value of each word that was given, with its place; the spare pieces."""
    values, places, spare = {}, {}, []
    for entry in entries:
        if entry.word == "spare":
            spare.append(spare_piece(entry))
            continue
        if entry.word in places:
            raise WrongWord(f"{entry.place}: {entry.word} is given twice, first at {places[entry.word]}; expected once")
        places[entry.word] = entry.place
        values[entry.word] = value_of(entry)
    for name in ("outer", "inner"):
        if name in places and f"{name}-count" in places:
            place = places[f"{name}-count"]
            raise WrongWord(f"{place}: {name}-count stands in place of {name}, given at {places[name]}; expected one of them")
    missing = [word for word in NEEDED if word not in places and f"{word}-count" not in places]
    if missing:
        raise WrongWord(f"missing: {', '.join(missing)}; expected each of {', '.join(NEEDED)}")
    return values, places, spare


def file_of(tokens):
    """The job file that the words state."""
    values, places, spare = collected(entries_of(tokens))
    outer, inner = values.get("outer", []), values.get("inner", [])
    outer_count, inner_count = values.get("outer-count", len(outer)), values.get("inner-count", len(inner))
    outer_offset = values.get("outer-offset", HEADER.size)
    inner_offset = values.get("inner-offset", outer_offset + 4 * outer_count)
    if inner_offset > LARGEST:
        raise WrongWord(f"missing: inner-offset; expected it, as the outer list ends at byte {inner_offset}, which does not fit 32 bits")
    fixed = [values[word] for word in FIXED]
    header = HEADER.pack(*fixed, outer_count, outer_offset, inner_count, inner_offset)
    pieces = [("", "header", 0, header)]
    for name, offset, numbers in (("outer", outer_offset, outer), ("inner", inner_offset, inner)):
        pieces.append((places.get(name, ""), name, offset, struct.pack(f"<{len(numbers)}I", *numbers)))
    return laid_out(pieces + spare)


def laid_out(pieces):
    """The pieces at their places in one file."""
    file, owners = bytearray(), []
    for place, name, offset, data in pieces:
        end = offset + len(data)
        if data and end > LONGEST:
            raise WrongWord(f"{place}: {name} ends at byte {end}; expected at most {LONGEST}, the longest file that is written")
        if data and end > len(file):
            owners += [None] * (end - len(file))
            file += bytes(end - len(file))
        for at, byte in enumerate(data, offset):
            if owners[at] and file[at] != byte:
                other, whence = owners[at]
                raise WrongWord(
                    f"{place}: {name} overlaps {other}{whence and f' ({whence})'} and contradicts it:"
                    f" byte {at} is {file[at]} there and {byte} here; expected equal bytes"
                )
            file[at], owners[at] = byte, (name, place)
    return bytes(file)


def bytes_read(name, most):
    """The bytes of the file, which may have at most so many."""
    try:
        with open(0 if name == "-" else name, "rb", closefd=name != "-") as stream:
            data = stream.read(most + 1)
    except (OSError, ValueError) as error:
        raise BadFile(f"cannot read {quoted(name)}: {reason(error)}") from None
    if len(data) > most:
        raise BadFile(f"{quoted(name)} has more than {most} bytes; expected no more")
    return data


def bytes_written(name, data):
    try:
        with open(1 if name == "-" else name, "wb", closefd=name != "-") as stream:
            stream.write(data)
    except (OSError, ValueError) as error:
        raise BadFile(f"cannot write {quoted(name)}: {reason(error)}") from None


def reason(error):
    return getattr(error, "strerror", None) or str(error)


def write(name, arguments):
    if arguments:
        tokens = tokens_of_arguments(arguments)
    else:
        tokens = tokens_of_lines(bytes_read("-", LONGEST_WORDS).decode("utf-8-sig", "replace"))
    file = file_of(tokens)
    bytes_written(name, file)
    answer, why = refusal(file)
    if answer:
        print(f"job.py: note: the job program answers 'no {answer}': {why}", file=sys.stderr)
    return 0


def show(name, arguments):
    if arguments:
        raise WrongWord(f"{quoted(arguments[0])} stands after the file to show; expected nothing there")
    file = bytes_read(name, LONGEST)
    answer, why = refusal(file)
    lines = words_of(file) if len(file) >= HEADER.size else [" ".join(["# bytes:", *map(str, file)])]
    if answer:
        lines.append(f"# no {answer}: {why}")
    bytes_written("-", "".join(line + "\n" for line in lines).encode())
    return 1 if answer in (12, 13) else 0


def main(arguments):
    commands = {"write": write, "show": show}
    if arguments[:1] in (["--help"], ["-h"]) or arguments[1:2] in (["--help"], ["-h"]):
        bytes_written("-", __doc__.encode())
        return 0
    if not arguments or arguments[0] not in commands:
        found = f"unknown command {quoted(arguments[0])}" if arguments else "no command"
        raise WrongWord(f"{found}; expected write or show (job.py --help says more)")
    if len(arguments) < 2 or arguments[1] in WORDS:
        raise WrongWord(f"{arguments[0]} is not followed by a file; expected the file's name, or - (job.py --help says more)")
    return commands[arguments[0]](arguments[1], arguments[2:])


if __name__ == "__main__":
    try:
        status = main(sys.argv[1:])
    except WrongWord as wrong:
        print(f"job.py: {wrong}", file=sys.stderr)
        status = 2
    except BadFile as bad:
        print(f"job.py: {bad}", file=sys.stderr)
        status = 1
    except KeyboardInterrupt:
        status = 130
    sys.exit(status)
