"""Standard output that cannot take all of the table: what the joining example writes is whole, or its status and standard error say so.

Each stall is a pipe that does not wait, filled up but for some room, which is drained once a write has failed or the program has ended.

Usage: writing.py JOINER
"""

import os
import subprocess
import sys

from exact import Report, run, table, text, words

LONG = (513, 9, [[0, 1, 1]])
SHORT = (5, 2, [[0, 1, 1]])
PAGE = os.sysconf("SC_PAGE_SIZE")
SAYS = "could not be written"

# pages of the pipe that are free, and how many bytes the last of the others has left, which take a short write alone
ROOM = [(0, 0), (0, 1), (0, PAGE // 2), (0, PAGE - 1), (1, 0), (1, PAGE // 2), (2, 0), (3, PAGE // 2), (5, 0), (8, 0)]


def filled_pipe(pages, bytes_left):
    """A pipe that does not wait, its ends, and how many bytes stand in it."""
    reading, writing = os.pipe()
    os.set_blocking(writing, False)
    filled = 0
    try:
        while True:
            filled += os.write(writing, b"#" * PAGE)
    except BlockingIOError:
        pass
    for _ in range(min(pages + (bytes_left > 0), filled // PAGE)):
        filled -= len(os.read(reading, PAGE))
    if bytes_left:
        filled += os.write(writing, b"#" * (PAGE - bytes_left))
    return reading, writing, filled


def writes(process):
    """How many writes the process has made, failed ones too, and of how many bytes; None where the system does not tell."""
    try:
        with open(f"/proc/{process.pid}/io") as file:
            counts = dict(line.split(":") for line in file)
        return int(counts["syscw"]), int(counts["wchar"])
    except (OSError, KeyError):
        return None


def wait_for_failed_write(process):
    """Returns when the process has ended, or has made one more write with no more bytes."""
    before = None
    while process.poll() is None:
        now = writes(process)
        if before and now and now[0] > before[0] and now[1] == before[1]:
            return
        before = now


def drained(end):
    with open(end, "rb") as file:
        return file.read()


def stalled(joiner, pages, bytes_left):
    """The status, what reached the pipe and what standard error says."""
    reading, writing, filled = filled_pipe(pages, bytes_left)
    process = subprocess.Popen([joiner, *words(*LONG)], stdout=writing, stderr=subprocess.PIPE)
    os.close(writing)
    wait_for_failed_write(process)
    output = drained(reading)[filled:]
    _, said = process.communicate()
    return process.returncode, output.decode(), said.decode()


def whole_or_said(status, output, said, whole):
    return (status, output, said) == (0, whole, "") or (status == 1 and SAYS in said and whole.startswith(output))


def stalls(joiner, whole, report):
    for pages, bytes_left in ROOM:
        status, output, said = stalled(joiner, pages, bytes_left)
        what = f"a full pipe but for {pages} pages and {bytes_left} bytes: status {status}, {len(output)} of {len(whole)} bytes: {said}"
        report.see(whole_or_said(status, output, said, whole), what)


def room_for_all(joiner, report):
    reading, writing, filled = filled_pipe(1, 0)
    answer = run(joiner, *words(*SHORT), stdout=writing)
    os.close(writing)
    output = drained(reading)[filled:].decode()
    report.see((answer.returncode, output) == (0, text(table(*SHORT))), f"a pipe with room for all: {output}{answer}")


def refused_writes(joiner, report):
    """Standard output that takes nothing."""
    for arguments in [words(*LONG), words(*SHORT), ["--help"]]:
        with open("/dev/full", "w") as full:
            answer = run(joiner, *arguments, stdout=full)
            silent = run(joiner, *arguments, stdout=full, stderr=full)
        report.see(answer.returncode == 1 and SAYS in answer.stderr, f"/dev/full: joiner {' '.join(arguments)}: {answer}")
        report.see(silent.returncode == 1, f"/dev/full twice: joiner {' '.join(arguments)}: {silent}")
        answer = run("sh", "-c", 'exec "$0" "$@" >&-', joiner, *arguments)
        report.see(answer.returncode == 1 and SAYS in answer.stderr, f"closed output: joiner {' '.join(arguments)}: {answer}")
        for signal in [True, False]:
            reading, writing = os.pipe()
            os.close(reading)
            answer = run(joiner, *arguments, stdout=writing, restore_signals=signal)
            os.close(writing)
            report.see(answer.returncode != 0, f"no reader: joiner {' '.join(arguments)}: {answer}")


def main(joiner):
    whole = text(table(*LONG))
    report = Report()
    assert len(whole) > max(pages for pages, _ in ROOM) * PAGE + PAGE
    stalls(joiner, whole, report)
    room_for_all(joiner, report)
    refused_writes(joiner, report)
    print(f"writing: {report.tried} runs, {len(ROOM)} of them with a pipe that stalls; {report.failures} failures")
    return 1 if report.failures else 0


if __name__ == "__main__":
    sys.exit(main(sys.argv[1]))
