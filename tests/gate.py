"""The gate: each step is a target of the Makefile; one that fails ends its lane and, once what runs beside it has ended, the gate.

The proofs, a plain 'rt ci', take longest, and leave a processor idle where crates wait for one. A lane beside them fills that time, at a lower
priority: it works outside the checkout. What stands on the crates of the checkout comes after the proofs, since 'rt ci' keeps other commands
out of their folders until it ends, and is left out where these failed.
Before the last line stand the seconds of each step. The last line adds up: what 'rt ci' counted (crates and must-fail edits; a program or a
test that fails counts too), and one for each other step. A must-fail edit that shows nothing, since it no longer fits its file, passes 'rt ci';
here it fails the proofs.
"""

import concurrent.futures
import re
import subprocess
import sys
import time

PROOFS = "proofs"
MAKE = ["make", "--no-print-directory"]
BESIDE = ["trace", "second", "wrong-definitions"]
AFTER = ["library", "linked", "c-interface", "installed", "joiner", "job-tool", "wrong-weights"]
ENDED = re.compile(r"(\d+) passed, (\d+) failed")
BAD = re.compile(r"rt: ok; .*must-fail edits: [^;]*, (\d+) bad")


class Step:
    """A step that was run: what it printed, its seconds, and how many of its parts passed and failed."""

    def __init__(self, make, name, shown):
        begin = time.monotonic()
        self.name, self.lines = name, []
        process = subprocess.Popen([*make, name], stdout=subprocess.PIPE, stderr=subprocess.STDOUT, text=True)
        for line in process.stdout:
            self.lines.append(line.rstrip())
            if shown:
                print(line, end="", flush=True)
        succeeded = process.wait() == 0
        self.seconds = time.monotonic() - begin
        self.passed, self.failed = int(succeeded), int(not succeeded)
        if name == PROOFS:
            self.count(succeeded)

    def count(self, succeeded):
        """What 'rt ci' counted, in its last line, and the edits that are bad, in the line before. Where it failed, a line of make comes last."""
        ended = next((found for found in map(ENDED.fullmatch, reversed(self.lines)) if found), None)
        fine = [line for line in self.lines if line.startswith("rt: ok; ")]
        bad = sum(int(found[1]) for found in map(BAD.match, fine) if found)
        self.passed, self.failed = (int(ended[1]), int(ended[2]) + bad) if ended else (0, 1)
        if not succeeded or not fine:
            self.failed = max(self.failed, 1)
        if bad:
            print(f"must-fail edits that show nothing: {bad}", flush=True)


def lane(make, names, shown=False):
    """Runs the steps, up to the first that fails; shows what each prints as it comes, or whole when it has ended."""
    steps = []
    for name in names:
        if shown:
            print(f"== {name}", flush=True)
        steps.append(Step(make, name, shown))
        if not shown:
            print("\n".join([f"== {name}", *steps[-1].lines]), flush=True)
        if steps[-1].failed:
            break
    return steps


def main():
    with concurrent.futures.ThreadPoolExecutor() as pool:
        beside = pool.submit(lane, ["nice", *MAKE], BESIDE)
        steps = lane(MAKE, [PROOFS, *AFTER], True)
        steps += beside.result()
    passed, failed = sum(step.passed for step in steps), sum(step.failed for step in steps)
    print(f"== steps: {', '.join(f'{step.name} {step.seconds:.0f} s' for step in steps)}")
    print(f"{passed} passed, {failed} failed")
    return int(failed > 0)


if __name__ == "__main__":
    sys.exit(main())
