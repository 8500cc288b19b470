#!/usr/bin/env python3
"""Runs `rt` and tells how far it is, one line at a time; what `rt` itself says goes into a log.

    tools/progress.py check [CRATE..]     as rt check in the folder of each crate, or as rt all check: proves crates
    tools/progress.py program CRATE..     proves and builds programs: crates/CRATE/out/CRATE
    tools/progress.py ci                  as rt ci, the gate: also tries every wrong program, and runs every program

The log is target/rt_check.log, target/rt_program.log or target/rt_ci.log. On a terminal the line is written over; elsewhere one is written
each second at most. Where `rt` fails, the lines that say so are shown, or else the last ones, and the status is that of `rt`; it is 2 for
wrong use.

To be run in the repository's root."""
import pathlib
import re
import subprocess
import sys
import time

sys.dont_write_bytecode = True
from prover import below, listed
from wrong_programs import count_in, files_of

VERBS = {"check", "program", "ci"}
PROVED = re.compile(r"rt: (\w+) (?:proved$|is kept: )|== (?!summary$)(\w+)$|crate (\w+): modules ")
REFUSED = re.compile(r"rt: must-fail (\w+/[\w-]+)\.edit: refused")
RAN = re.compile(r"rt: (\w+) ran, and wrote")
CHECKED = re.compile(r"checked (\S+), (\d+) of (\d+)$")
TROUBLE = re.compile(r"NOT PROVED|NOT REFUSED|NOT TRIED|BAD EDIT|FAILED|is not in the layout|error[:[]|: not? prove[nd]|: no proof|is not what its file|ended with status|rt: /")
LINES_SHOWN = 20
LONGEST = 300


def wanted_of(names):
    """The named crates and all that they stand on, or every crate where none is named."""
    return {it for name in names or listed() if name in listed() for it in [*below(name), name]}


class Count:
    """What was done of what is to be done, in three kinds."""

    def __init__(self, verb, names):
        crates = dict.fromkeys(wanted_of(names), 1)
        programs = {name: 1 for name in crates if pathlib.Path("crates", name, "src/main.rt").exists()}
        wrong = {f"{file.parts[-3]}/{file.stem}": count_in(file) for file in files_of()} if verb == "ci" else {}
        self.kinds = [(PROVED, "proved {} of {} crates", crates, set()),
                      (REFUSED, "refused {} of {} wrong programs", wrong, set()),
                      (RAN, "ran {} of {} programs", programs, set())]

    def told_by(self, line):
        """How far it is now, where a line of `rt` tells of it."""
        if found := CHECKED.match(line):
            return f"checked {found[1]}, {found[2]} of {found[3]}"
        for pattern, words, counts, done in self.kinds:
            found = pattern.match(line.rstrip("\n"))
            if found:
                done.add(next(it for it in found.groups() if it))
                return words.format(sum(counts.get(name, 0) for name in done), sum(counts.values()))
        return ""


class Teller:
    """Writes how far it is: over the last line on a terminal, else one line each second at most."""

    def __init__(self):
        self.began = self.last = time.monotonic()
        self.over = sys.stderr.isatty()
        self.held = ""

    def tell(self, words):
        now = time.monotonic()
        self.held = f"{words} ({now - self.began:.0f} s)"
        if self.over:
            print(f"\r\033[K{self.held}", end="", file=sys.stderr, flush=True)
        elif now - self.last >= 1:
            self.close()

    def close(self):
        """Writes what was told last and is not yet written, and ends the line."""
        if self.held:
            print("" if self.over else self.held, file=sys.stderr, flush=True)
        self.held, self.last = "", time.monotonic()


def commands_of(verb, names):
    """The commands of `rt`, and where each is run. A program is built by a run of it on no input, whose output is let go."""
    if verb == "ci":
        return [(["rt", "ci"], ".")]
    if verb == "check" and not names:
        return [(["rt", "all", "check"], ".")]
    return [(["rt", "check" if verb == "check" else "run"], f"crates/{name}") for name in names]


def run(verb, names, log):
    """The status of the first `rt` that fails, or 0."""
    count, teller = Count(verb, names), Teller()
    log.parent.mkdir(exist_ok=True)
    with log.open("w", buffering=1) as file:
        for command, place in commands_of(verb, names):
            output = subprocess.STDOUT if verb != "program" else subprocess.PIPE
            with subprocess.Popen(command, cwd=place, stdin=subprocess.DEVNULL, text=True, errors="replace", stderr=output,
                                  stdout=subprocess.PIPE if verb != "program" else subprocess.DEVNULL) as process:
                for line in process.stdout or process.stderr:
                    file.write(line)
                    words = count.told_by(line)
                    if words:
                        teller.tell(words)
            if process.returncode != 0:
                break
    teller.close()
    return process.returncode


def show_failure(verb, status, log):
    """Shows the lines of the log that tell what has failed, or its last ones."""
    said = log.read_text().splitlines() if log.exists() else []
    told = [line for line in said if TROUBLE.search(line)][:LINES_SHOWN] or said[-LINES_SHOWN:]
    print(*[line[:LONGEST] for line in told], f"rt {verb} FAILED, status {status}; {log} has all that it said", sep="\n", file=sys.stderr)


def main(arguments):
    if arguments in (["-h"], ["--help"]):
        print(__doc__)
        return 0
    if not arguments or arguments[0] not in VERBS or arguments[0] == "program" and not arguments[1:]:
        print(__doc__, file=sys.stderr)
        return 2
    verb, *names = arguments
    unknown = [name for name in names if name not in listed()]
    if unknown:
        print(f"crates.txt has no crate {unknown[0]}; it has {', '.join(sorted(listed()))}", file=sys.stderr)
        return 2
    log = pathlib.Path(f"target/rt_{verb}.log")
    try:
        print(f"rt {' '.join(arguments)}: what it says goes to {log}", file=sys.stderr, flush=True)
        status = run(verb, names, log)
    except OSError as error:
        print(f"rt could not be run here: {error}. It is the command of the Rattle toolchain.", file=sys.stderr)
        return 2
    except KeyboardInterrupt:
        print(f"\nrt {verb} was stopped; {log} has what it said", file=sys.stderr)
        return 130
    if status != 0:
        show_failure(verb, status, log)
    return status


if __name__ == "__main__":
    sys.exit(main(sys.argv[1:]))
