"""Holds the library to the bytes of stack that are told of it.

    python3 -B stack/judge.py NUMBERS ARCHIVE CODE.s..

Ends with status 1 where a function takes more than NUMBERS says, where none is told of one, and where include/bhorelmu.h,
docs/RECORD.md or, of a call, docs/STATEMENT.md does not say the same numbers. Where a function takes less it says so, and that is no fault."""
import pathlib
import re
import sys

from measure import measure
from ways import Refused

PROCESSORS = ["x86-64", "thumbv6m"]
HEADER = pathlib.Path("include/bhorelmu.h")
RECORD = pathlib.Path("docs/RECORD.md")
STATEMENT = pathlib.Path("docs/STATEMENT.md")


def told(path):
    lines = [line.split() for line in pathlib.Path(path).read_text().splitlines() if line and not line.startswith("#")]
    return {name: [int(number) for number in numbers] for name, *numbers in lines}


def faults_of_code(numbers, found):
    """What is wrong with the code of one processor beside its numbers."""
    for name in sorted(set(numbers) ^ set(found)):
        yield f"{name} is not both told and there"
    for name in sorted(set(numbers) & set(found)):
        size, way = found[name]
        if size > numbers[name]:
            yield (f"{name} takes {size} bytes, and {numbers[name]} are told ({' > '.join(way)}): mend it, or raise the number and "
                   "say why")


def out_of_date(numbers, found):
    for name in sorted(set(numbers) & set(found)):
        if found[name][0] < numbers[name]:
            yield f"{name} takes {found[name][0]} bytes now, and {numbers[name]} are told"


def faults_of_documents(numbers):
    header, record = HEADER.read_text(), RECORD.read_text()
    for name, (wide, small) in numbers.items():
        if not re.search(rf"Stack: {wide} bytes on x86-64, {small} on thumbv6m\.(?:(?!\*/).)*\*/\n\w+ {name}\(", header, re.S):
            yield f"{HEADER} does not tell {wide} and {small} of {name}"
        if f"| `{name}` | {wide} | {small} |" not in record:
            yield f"{RECORD} does not tell {wide} and {small} of {name}"
    wide, small = numbers["bhorelmu_call"]
    if f"at most {wide} bytes of it on x86-64 and {small} on thumbv6m" not in STATEMENT.read_text():
        yield f"{STATEMENT} does not tell {wide} and {small} of a call"


def main():
    if len(sys.argv) < 4:
        raise SystemExit(__doc__)
    numbers, faults = told(sys.argv[1]), []
    for place, (processor, paths) in enumerate(zip(PROCESSORS, [sys.argv[2:3], sys.argv[3:]])):
        try:
            found, _ = measure(paths)
        except Refused as why:
            raise SystemExit(f"stack, {processor}: {why}")
        of_this = {name: row[place] for name, row in numbers.items()}
        faults += [f"{processor}: {fault}" for fault in faults_of_code(of_this, found)]
        for line in out_of_date(of_this, found):
            print(f"stack, {processor}: {line}")
    faults += faults_of_documents(numbers)
    for fault in faults:
        print(f"stack: {fault}")
    return 1 if faults else 0


if __name__ == "__main__":
    sys.exit(main())
