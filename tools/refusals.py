#!/usr/bin/env python3
"""Whether each wrong program is refused, by an error of its own, at a fact. Run after `rt ci`.

    tools/refusals.py                   of every wrong program
    tools/refusals.py --said FOLDER     by what FOLDER/CRATE/FILE.log has that the prover said, and nothing else

`rt ci` says of a file of wrong programs only the beginning of what it met first. So each file is tried here once more, and all that the prover
says of it is read (`tools/tried.py -h`).

Several wrong programs share a run, and it is refused where one of them is. So each must have an error in the proof of a function whose
text it changes; where it changes a constant or a definition, in the proof of a function that it names, or of any function if it is alone
in its file, or, where the crate has none of those that it names, in any proof. An error shows nothing where it says that another function was not admitted, or that a name or an argument is
missing: then the edit merely made the proof file unfit for the code. A function that has no proof file has no such error; the search for
its facts says which of them it does not find. That it calls a function that is not proved shows nothing.

Status 0, or 1 where a wrong program is not shown to be refused, or 2 for wrong use. To be run in the repository's root."""
import concurrent.futures
import os
import pathlib
import re
import sys

sys.dont_write_bytecode = True
from tried import Tries
from wrong_programs import Misuse, files_of, functions_of, programs_in

ERROR = re.compile(r"^(?:\./)?(\S+?):\d+:\d+: error: .*(?:\n  .*)*", re.M)
OPEN = re.compile(r"^fn (\S+?): no proof: .*did not prove .*", re.M)
ECHO = "was not admitted"
UNFIT = re.compile("that can be named from here|has no field|has no `|binders, but its type has room|is not in scope|it is not inferred")
LONGEST = 300


def first_line(error):
    return error.split("\n", 1)[0]


class Log:
    """What the prover said of a crate with wrong programs in it: its errors, and the functions of which a fact was not found."""

    def __init__(self, crate, said):
        self.crate = crate
        self.errors = [(found[1], found[0]) for found in ERROR.finditer(said) if ECHO not in first_line(found[0])]
        self.open = {found[1]: found[0] for found in OPEN.finditer(said)}

    def first_at(self, function):
        """The first error in the proof of a function, or what was not found of it, if any."""
        place = "::".join(part for part in function if part != "lib")
        here = [error for path, error in self.errors if path.startswith(f"proofs/{place.replace('::', '/')}/") or f"/proofs/{place.replace('::', '/')}/" in path]
        return here[0] if here else self.open.get(f"{self.crate}::{place}")

    def first_of_functions(self):
        """The first error in the proof of any function, or the first fact that was not found of one, if any."""
        here = [error for path, error in self.errors if path.endswith(("/Answers.antt", "/Invariants.antt"))]
        return here[0] if here else next(iter(self.open.values()), None)

    def first(self):
        """The first error of all, or the first fact that was not found, if any."""
        return next((error for _, error in self.errors), None) or self.first_of_functions()


def shown_by(program, alone):
    """The functions in whose proofs a wrong program can have its error, and whether any other place will do."""
    changed = set(program.changed())
    if None not in changed:
        return changed, False
    named = {function for function, name in functions_of(program.crate).items() if name in program.functions}
    return changed - {None} | named, alone


def judged(program, alone, log):
    """Whether a wrong program is shown to be refused, and the error that shows it or what is wrong."""
    functions, anywhere = shown_by(program, alone)
    errors = [error for error in map(log.first_at, sorted(functions)) if error]
    if not errors and anywhere:
        first = log.first_of_functions() if functions else log.first()
        errors = [first] if first else []
    fitting = [error for error in errors if not UNFIT.search(error)]
    if fitting:
        return True, first_line(fitting[0])
    if errors:
        return False, f"refused, and not at a fact: {first_line(errors[0])}"
    return False, f"no error of its own in the proof of {' or '.join(name for _, name in sorted(functions)) or 'anything'}"


def verdicts_of(programs, said):
    log = Log(programs[0].crate, said)
    return [(program, *judged(program, len(programs) == 1, log)) for program in programs]


def faults_in(file, tries):
    """What is wrong with the refusals of a file's wrong programs."""
    programs = programs_in(file)
    if not programs:
        return [f"{file}: there is no wrong program"]
    said, why = tries.said(file)
    if why:
        return [f"{file}: {why}"]
    return [f"{file}: {program.name}: {words[:LONGEST]}" for program, refused, words in verdicts_of(programs, said) if not refused]


class Kept:
    """What a folder has, in the place of tries."""

    def __init__(self, folder):
        self.folder = pathlib.Path(folder)

    def __enter__(self):
        return self

    def __exit__(self, *_):
        pass

    def said(self, file):
        log = self.folder / file.parts[-3] / f"{file.stem}.log"
        return (log.read_text(errors="replace"), "") if log.is_file() else ("", "no log of its refusal")


def main(arguments):
    if arguments and (len(arguments) != 2 or arguments[0] != "--said"):
        asked = arguments in (["-h"], ["--help"])
        print(__doc__, file=sys.stdout if asked else sys.stderr)
        return 0 if asked else 2
    files = files_of()
    try:
        with Kept(arguments[1]) if arguments else Tries() as tries, concurrent.futures.ThreadPoolExecutor(len(os.sched_getaffinity(0))) as pool:
            each = list(pool.map(lambda file: faults_in(file, tries), files))
        faults = [fault for faults in each for fault in faults]
    except Misuse as misuse:
        faults = [str(misuse)]
    for fault in faults if files else ["there is no wrong program"]:
        print(fault)
    return 1 if faults or not files else 0


if __name__ == "__main__":
    sys.exit(main(sys.argv[1:]))
