"""Turns what bench/run.sh has measured into the tables of docs/BENCH.md and into docs/bench.svg.

Judges by instructions alone, which are the same on every machine. Ends with status 1 where a call takes more of them than the model
by either compiler and is not named under "Where we are slower", where it takes more than bench/limits.txt allows, and where an Unlock
takes more or less by which byte of its password is wrong."""
import pathlib
import sys

import blocks
import counted
import limits
import picture

SHORT = 2  # nanoseconds: what is shorter is not told from the clock's own time
MODELS = ["gcc", "clang"]
SIDES = ["ours", *MODELS]
WAYS = ["proved", "256 entries", "zlib"]
SERIES = ["Program", "Read back", "Verify", "Range erase", "Mass erase"]


def lines_of(name):
    return [line.split("\t") for line in (counted.WORK / name).read_text().splitlines()]


class Case:
    def __init__(self, line, steps):
        self.name, self.title = line[0], counted.title_of(line[0], line[1])
        self.bytes, self.only_a_size = int(line[2]), line[3] == "1"
        self.times = dict(zip(SIDES, map(float, line[4:]), strict=True))
        self.steps = steps[self.title]

    def ratio(self, model):
        return self.steps["ours"] / self.steps[model]

    def takes_more(self):
        return any(self.ratio(model) > 1 for model in MODELS)


def nanoseconds(time):
    if time < SHORT:
        return f"below {SHORT}"
    return f"{time:.1f}" if time < 100 else f"{time:,.0f}"


def ratio(number):
    return f"**{number:.2f}**" if number > 1 else f"{number:.2f}"


def call_table(cases):
    heads = ["call", "ours", "gcc", "ratio", "clang", "ratio", "ours, ns", "gcc, ns", "clang, ns"]
    rows = []
    for case in cases:
        beside = [cell for model in MODELS for cell in (f"{case.steps[model]:,}", ratio(case.ratio(model)))]
        rows.append([case.title, f"{case.steps['ours']:,}", *beside, *(nanoseconds(case.times[side]) for side in SIDES)])
    return blocks.table(heads, rows)


def size_rows(cases):
    before = None
    for case in cases:
        row = [case.name, f"{case.bytes:,}"]
        for side in SIDES:
            more = "" if before is None else f"{(case.steps[side] - before.steps[side]) / (case.bytes - before.bytes):.2f}"
            row += [f"{case.steps[side]:,}", more]
        yield row + [nanoseconds(case.times["ours"])]
        before = case


def size_table(cases):
    heads = ["call", "bytes", "ours", "each further byte", "gcc", "each further byte", "clang", "each further byte", "ours, ns"]
    return blocks.table(heads, [row for name in SERIES for row in size_rows([case for case in cases if case.name == name])])


def times_as_fast(proved, other):
    return f"{other / proved:.2f}" if min(proved, other) >= SHORT else ""


def checksum_table():
    heads = ["bytes", *WAYS, *(f"{way}, ns" for way in WAYS), "x 256 entries", "x zlib"]
    rows, steps = [], counted.of_checksums()
    for line in lines_of("checksums.times"):
        size, times = int(line[0]), [float(time) for time in line[1:]]
        rows.append([f"{size:,}", *(f"{steps[size][way]:,}" for way in WAYS), *map(nanoseconds, times),
                     *(times_as_fast(times[0], other) for other in times[1:])])
    return blocks.table(heads, rows)


def place_table(places):
    """What an Unlock takes that is wrong in one byte, over all places of that byte."""
    heads = ["an Unlock wrong in one byte, at each place", "places", "different numbers", "least", "most"]
    rows = [[side, f"{len(steps)}", f"{len(set(steps))}", f"{min(steps):,}", f"{max(steps):,}"] for side, steps in places.items()]
    return blocks.table(heads, rows)


def machine():
    said = dict(lines_of("machine.tsv"))
    text = (f"Instructions: qemu-x86_64 {said['qemu']}, gcc {said['gcc']}, the toolchain's clang {said['clang']}, "
            f"zlib {said['zlib']}. Times: {said['processor']}, {said['processors']} processors")
    if said["machine"] == "x86_64":
        return text + ", the archive as it is shipped."
    return text + (f". This processor ({said['machine']}) cannot run the archive, so what is timed of ours is the archive's own "
                   "modules, compiled for it by the toolchain's clang at -O3; both models are compiled for it too.")


def is_said(case, said):
    """A call of the AM13E230x is explained with that of the MSPM0."""
    return case.name.removeprefix("AM13E230x: ") in said


def unexplained(cases):
    said = blocks.section("Where we are slower")
    for name in sorted({case.name for case in cases if case.takes_more() and not is_said(case, said)}):
        yield f"{name} takes more instructions than the model's, and docs/BENCH.md does not say why"


def told_by_place(places):
    if len(set(places["ours"])) > 1:
        yield f"an Unlock takes another number of instructions where another byte is wrong: {places['ours']}"


def main():
    steps = counted.of_calls()
    cases = [Case(line, steps) for line in lines_of("calls.times")]
    shown = [case for case in cases if not case.only_a_size]
    blocks.replace("machine", machine())
    places = counted.of_places()
    blocks.replace("calls", call_table(shown))
    blocks.replace("places", place_table(places))
    blocks.replace("sizes", size_table(cases))
    blocks.replace("checksum", checksum_table())
    rows = [(case.title, *(case.ratio(model) for model in MODELS)) for case in shown]
    pathlib.Path("docs/bench.svg").write_text(picture.svg(rows))
    more = [sum(case.ratio(model) > 1 for case in shown) for model in MODELS]
    print(f"bench: of {len(shown)} calls {more[0]} take more instructions than the model by gcc, {more[1]} than by clang; "
          "docs/BENCH.md has the figures")
    faults = [*unexplained(cases), *told_by_place(places), *limits.faults({case.title: case.ratio("clang") for case in cases})]
    for fault in faults:
        print(f"bench: {fault}")
    return 1 if faults else 0


if __name__ == "__main__":
    sys.exit(main())
