"""What the gate costs, crate by crate and for each file of wrong programs, from the lines that a gate run has printed: rewrites
those tables of docs/BENCH.md. It reads the lines of rattle-kit-5b; later toolchains tell no seconds.

    make test | tee LOG; python3 -B bench/gate_cost.py LOG
"""
import collections
import pathlib
import re
import sys

import blocks

sys.path.append("tools")
from wrong_programs import programs_of

PROVED = re.compile(r"^rt: (\w+) proved \((\d+) s\)$")
REFUSED = re.compile(r"^rt: must-fail (\w+)/(\w+): refused, as it must be \(.*?(\d+) s\)$")


def read(lines):
    """The seconds of each crate's own check, in the order of the run, and those of its edits."""
    checks, edits = {}, collections.defaultdict(dict)
    for line in lines:
        if found := PROVED.match(line):
            checks.setdefault(found[1], int(found[2]))
        elif found := REFUSED.match(line):
            edits[found[1]][found[2]] = int(found[3])
    return checks, edits


def row(name, check, programs, edits):
    mean = f"{sum(edits) / len(edits):.0f}" if edits else ""
    return [f"`{name}`" if name != "all" else name, str(check), str(programs or ""), str(len(edits) or ""), mean, str(check + sum(edits))]


def main():
    if sys.argv[1:] in (["-h"], ["--help"]):
        print(__doc__.strip())
        return
    if len(sys.argv) != 2:
        raise SystemExit(__doc__)
    try:
        lines = pathlib.Path(sys.argv[1]).read_text().splitlines()
    except OSError as error:
        raise SystemExit(f"{sys.argv[1]}: {error.strerror}; name a file with what the gate has printed")
    checks, edits = read(lines)
    if not checks:
        raise SystemExit(f"{sys.argv[1]}: no line tells in how many seconds a crate was proved")
    programs = {name: len(programs_of(name)) for name in checks}
    rows = [row(name, check, programs[name], list(edits[name].values())) for name, check in checks.items()]
    all_edits = [seconds for each in edits.values() for seconds in each.values()]
    rows.append(row("all", sum(checks.values()), sum(programs.values()), all_edits))
    blocks.replace("gate", blocks.table(["crate", "check, s", "wrong programs", "files", "mean of a file, s", "together, s"], rows))
    each = [[f"`{name}`", ", ".join(f"{edit} {seconds}" for edit, seconds in edits[name].items())] for name in checks if edits[name]]
    blocks.replace("edits", blocks.table(["crate", "each file of wrong programs, s"], each))


if __name__ == "__main__":
    main()
