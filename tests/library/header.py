"""The version is said four times, and the offsets and values of the fields twice: they agree.

- VERSION, the header's two macros, and the newest heading of CHANGELOG.md; the .pc file gets it from VERSION.
- Each BHORELMU_RECORD_ and BHORELMU_FIELD_ offset of the header is where a row of docs/RECORD.md begins, and each row has a name.
- The values of reset mode, alert and readout are those that docs/RECORD.md names."""
import pathlib
import re
import sys

HEADER = pathlib.Path("include/bhorelmu.h").read_text()
RECORD = pathlib.Path("docs/RECORD.md").read_text()


def section(title):
    """A part of docs/RECORD.md, from its heading on."""
    return re.search(rf"^## {title}.*?(?=^## |\Z)", RECORD, re.M | re.S).group()


def named(prefix):
    """The number of each macro of the header that begins so."""
    return {name: int(number) for name, number in re.findall(rf"^#define ({prefix}\w+) (\d+)u\b", HEADER, re.M)}


def places(title, text=None):
    """Where the rows of the first table in a part begin."""
    table = re.search(r"^\| bytes \|.*\n\|.*\n((?:\|.*\n)+)", text or section(title), re.M).group(1)
    return [int(place) for place in re.findall(r"^\| (\d+)", table, re.M)]


def faults_of_version():
    version = pathlib.Path("VERSION").read_text().strip()
    if not re.fullmatch(r"\d+\.\d{1,2}\.\d{1,2}", version):
        yield f"VERSION: '{version}' is not three numbers with points between"
        return
    major, minor, patch = map(int, version.split("."))
    if f'#define BHORELMU_VERSION "{version}"\n' not in HEADER:
        yield f"include/bhorelmu.h: BHORELMU_VERSION is not {version}"
    if not re.search(rf"^#define BHORELMU_VERSION_NUMBER {major * 10000 + minor * 100 + patch}\b", HEADER, re.M):
        yield f"include/bhorelmu.h: BHORELMU_VERSION_NUMBER is not that of {version}"
    newest = re.search(r"^## (\S+)", pathlib.Path("CHANGELOG.md").read_text(), re.M)
    if not newest or newest.group(1) != version:
        yield f"CHANGELOG.md: its newest heading is not {version}"
    if "\nVersion: @VERSION@\n" not in pathlib.Path("include/bhorelmu.pc.in").read_text():
        yield "include/bhorelmu.pc.in: its version is not filled in"


def faults_of_offsets():
    for prefix, title in [("BHORELMU_RECORD_", "The record"), ("BHORELMU_FIELD_", "The fields")]:
        offsets = sorted(number for name, number in named(prefix).items() if name != "BHORELMU_RECORD_SIZE")
        if offsets != places(title):
            yield f"include/bhorelmu.h: the offsets {prefix}.. are {offsets}, and docs/RECORD.md has {places(title)}"
    larger = section("The AM13E230x").split("### Its fields")[1]
    last = sorted(named("BHORELMU_AM13E230X_FIELD_").values())
    if last != places("", larger)[1:]:
        yield f"include/bhorelmu.h: the last fields of the AM13E230x are at {last}, and docs/RECORD.md has {places('', larger)[1:]}"
    sizes = {"BHORELMU_RECORD_SIZE": "## The record: {} bytes", "BHORELMU_FIELDS_SIZE": "## The fields: {} bytes",
             "BHORELMU_AM13E230X_RECORD_SIZE": "### Its record: {} bytes", "BHORELMU_AM13E230X_FIELDS_SIZE": "### Its fields: {} bytes",
             "BHORELMU_AM13E230X_SETTINGS_SIZE": "## The AM13E230x"}
    for name, words in sizes.items():
        number = named("BHORELMU_").get(name, 0)
        if words.format(number) not in RECORD or f"{number:,} bytes" not in RECORD:
            yield f"docs/RECORD.md: no heading has the number of {name}"


def faults_of_values():
    for owner, row in [("reset_mode", "reset mode: 0 Factory reset is off, 1 on, 2 wants"), ("alert", "0 nothing, 1 erase, 2 disable")]:
        values = re.search(rf"^enum bhorelmu_{owner} \{{(.*?)\}}", HEADER, re.M | re.S).group(1).split(",")
        if len(values) != 3 or "=" in "".join(values) or row not in RECORD:
            yield f"include/bhorelmu.h: {owner} has not the three values of docs/RECORD.md"
    if "#define BHORELMU_READOUT_ON 0xAABBu" not in HEADER or "on at 0xAABB alone" not in RECORD:
        yield "include/bhorelmu.h: readout's value is not that of docs/RECORD.md"


def main():
    wrong = [*faults_of_version(), *faults_of_offsets(), *faults_of_values()]
    for line in wrong:
        print(line)
    return 1 if wrong else 0


if __name__ == "__main__":
    sys.exit(main())
