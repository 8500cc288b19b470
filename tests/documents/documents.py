"""Keeps the documents that are signed true: what they cite is there, and what must be listed is listed.

A name is there where a file of the crates defines it. A comment that speaks of it, or a `use` that fetches it, does not count.
Where a document says where a name stands, it must be defined there: "`name` (`file`)", "`name` in `file`", "`name` of `crate`",
"`field` of `Record`", `crate::name`."""
import collections
import pathlib
import re
import sys

from public_functions import libraries, public_functions
from wrong_programs import bare, blocks_in, files_of, programs_of

PAST = {pathlib.Path("docs/PORT.md"), pathlib.Path("docs/DESIGN-PASS.md"), pathlib.Path("docs/LOOK-BACK.md")}  # tell what had which name before, and are signed by nobody
SIGNED = [path for path in sorted(pathlib.Path("docs").glob("*.md")) if path not in PAST] + [pathlib.Path("README.md")]
PROMISES = pathlib.Path("docs/PROMISES.md")

# How a document cites: names, and beside them the files that have them or the one crate, record, struct or enum.
NAME = r"`[A-Za-z][\w'-]*`"
NAMES = rf"{NAME}(?:(?:,|,?\s+and)\s+{NAME})*"
FILE = r"`(?:crates|docs|tests|include|examples|verification|tools|bench|stack)/[\w./-]+`"
NAMES_IN_FILES = re.compile(rf"({NAMES})\s+(?:\(|in\s+)({FILE}(?:,\s+{FILE})*)")
NAMES_OF_OWNER = re.compile(rf"({NAMES})\s+(?:of|in)\s+({NAME})")
NAME_OF_OWNER = re.compile(r"`(\w+)::(\w+)`")
PLACEHOLDER = re.compile(r"\b(CRATE|MODULE|FUNCTION|NAME)\b")
MARKER = re.compile(r"(<{7}|={7}|>{7}|\|{7})( |$)")

# How a file defines. What is declared with its type is unindented or public: what is local to a proof cannot be cited. The parts
# of a record and the cases of a data type stand two spaces in, those of a struct, an enum, a trait or an impl four; of an impl they are its type's.
DECLARED = re.compile(r"^(?: *(?:unfoldable |abbrev )?pub |(?:unfoldable |abbrev )?)([^\s():]+) :\s", re.M)
ITEM = re.compile(r'^(?:pub(?:\(crate\))? )?(?:extern "C" )?(?:fn|const|static|mod|type) (\w+)', re.M)
OWNER = re.compile(r"^(?:pub(?:\(crate\))? )?(?:record|data|struct|enum) (\w+).*\n((?:(?: .*)?\n)*)", re.M)
PART = re.compile(r"^(?:  |    )(?:pub )?(?:fn |const |ghost )?(\w[\w'-]*)(?: ?:|,|\(|<| \{| = \{)", re.M)
PARAMETER = re.compile(r"(\w+): ")
FROM_LIBRARY = re.compile(r"^(?:ghost )?use (?:Prim|mathlib|lib|borrow|Rattle\.(?:std|core))\.[^{\n]*\{([^}]*)\}", re.M)

# What may be cited and is defined nowhere here.
ORDINARY = {
    # words of the language, and steps of a proof
    "requires", "if", "else", "loop", "while", "for", "match", "static", "trait", "impl", "use", "where", "From", "TryFrom", "Display", "unfolding", "unfoldable", "cc", "omega", "rw", "search",
    # the toolchain's command, functions of C and zlib, and a word of a script's text
    "rt", "crc32", "memcmp", "memcpy", "memset", "raw",
}


def below(place):
    """All files below a place, but for what the prover leaves beside a crate: copies of definitions, as they were when it was last proved."""
    for path in sorted(place.iterdir()):
        if not path.is_dir():
            yield path
        elif path.name != "out":
            yield from below(path)


def sources(place):
    """The files that define something: the one at a place, or all those below it."""
    paths = [place] if place.is_file() else below(place)
    return [path for path in paths if path.suffix in (".rt", ".antt")]


def parts_of_owners(place):
    """The fields, cases and functions of each record, data type, struct, enum and trait that is defined at a place."""
    parts = collections.defaultdict(set)
    for path in sources(place):
        text = path.read_text()
        bodies = [*OWNER.findall(text), *((bare(block.owner), block.text) for block in blocks_in(text) if path.suffix == ".rt")]
        for owner, body in bodies:
            parts[owner].update(PART.findall(body))
    return parts


def defined_at(place):
    """Every name that is defined at a place."""
    parts = parts_of_owners(place)
    names = set(parts).union(*parts.values())
    for path in sources(place):
        text = path.read_text()
        names.update(DECLARED.findall(text), ITEM.findall(text))
    return names


def names_of_library():
    """The names that the crates fetch from the toolchain's library. The prover has seen that each is there."""
    names = set()
    for path in sources(pathlib.Path("crates")):
        for fetched in FROM_LIBRARY.findall(path.read_text()):
            names.update(re.findall(r"[^\s,]+", fetched))
    return names


def known_names():
    """Every single name that a document may cite."""
    crates = pathlib.Path("crates")
    wrong = {program.name for program in programs_of()} | {file.stem for file in files_of()}
    folders = {path.name for path in crates.iterdir()}
    return defined_at(crates) | names_of_library() | wrong | folders | ORDINARY


def parameters():
    """The names of what public functions are handed: their promises speak of it."""
    heads = [function.head for library in libraries() for function in public_functions(library)]
    return {name for head in heads for name in PARAMETER.findall(head)}


def cited(text):
    """What stands in backquotes, without code blocks."""
    text = re.sub(r"^    .*$", "", text, flags=re.M)
    return re.findall(r"`([^`\n]+)`", text)


def is_there(file):
    """Whether a file is there: by its whole path, or by the end of it within a crate."""
    return pathlib.Path(file).exists() or any(str(path).endswith(f"/{file}") for path in below(pathlib.Path("crates")))


def fault_in(name, known):
    """What is wrong with something cited, if anything."""
    if PLACEHOLDER.search(name):
        return None
    if re.fullmatch(FILE, f"`{name}`") or re.fullmatch(r"[\w/]+\.(rt|antt|txt|md)", name):
        return None if is_there(name) else "there is no"
    if re.fullmatch(NAME, f"`{name}`"):
        return None if name in known else "nothing is named"
    return None


def not_in_files(text):
    """Names that the files beside them do not define."""
    for names, files in NAMES_IN_FILES.findall(text):
        defined = set().union(*(defined_at(pathlib.Path(file)) for file in cited(files)))
        for name in cited(names):
            if name not in defined:
                yield f"{name} is not defined in {', '.join(cited(files))}"


def not_of_owners(text):
    """Names that the crate, record, struct or enum beside them does not have."""
    parts = parts_of_owners(pathlib.Path("crates"))
    pairs = [(name, owner.strip("`")) for names, owner in NAMES_OF_OWNER.findall(text) for name in cited(names)]
    pairs += [(name, owner) for owner, name in NAME_OF_OWNER.findall(text)]
    for name, owner in pairs:
        crate = pathlib.Path("crates", owner)
        if name not in (defined_at(crate) if crate.exists() else parts[owner]):
            yield f"{owner} has no {name}"


def faults_in(document, known):
    """All that is wrong with what a document cites."""
    text = document.read_text()
    allowed = known | parameters() if document == PROMISES else known
    for name in cited(text):
        fault = fault_in(name, allowed)
        if fault:
            yield f"{document}: {fault} {name}"
    for fault in [*not_in_files(text), *not_of_owners(text)]:
        yield f"{document}: {fault}"


def sections():
    """What the promises say of each crate."""
    parts = re.split(r"^## `(\w+)`$", PROMISES.read_text(), flags=re.M)
    return dict(zip(parts[1::2], parts[2::2]))


def not_listed(library, section):
    """The public functions and wrong programs of a library that its section of the promises leaves out."""
    listed = set(cited(section))
    for function in public_functions(library):
        if function.name not in listed:
            yield f"{PROMISES}: {function.name} of {library.name} is not listed"
    for program in programs_of(library.name):
        if program.name not in listed:
            yield f"{PROMISES}: the wrong program {program.name} of {library.name} is not cited"


def markers_in(document):
    """The lines that a merge has left for somebody to choose between."""
    for number, line in enumerate(document.read_text().splitlines(), 1):
        if MARKER.match(line):
            yield f"{document}:{number}: two versions stand here beside each other"


def main():
    known = known_names()
    said = sections()
    wrong = [fault for document in SIGNED for fault in (*faults_in(document, known), *markers_in(document))]
    wrong += [fault for library in libraries() for fault in not_listed(library, said.get(library.name, ""))]
    for line in wrong:
        print(line)
    return 1 if wrong else 0


if __name__ == "__main__":
    sys.exit(main())
