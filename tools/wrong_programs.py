#!/usr/bin/env python3
"""Lists the wrong programs, which the prover must refuse.

    tools/wrong_programs.py [CRATE..]

prints of each: its crate, the file that it stands in, its name, and the functions that it breaks.

A file crates/CRATE/must-fail/FILE.edit has one wrong program or several, which are tried in one run. Each begins with a line
`# NAME (FUNCTION, FUNCTION): what it does`, which names the public functions that it breaks; one of a type or a trait is `TYPE::FUNCTION`,
as `Mspm0::part`, and one that a type has of a trait is the type's, as `u8::from`. After it come lines `file: src/x.rt`, `old: text` and
`new: text`; a `file:` line holds for the pairs after it. Each old text stands in its file once.

Status 0, or 2 for wrong use. To be run in the repository's root."""
import pathlib
import re
import sys
import typing

FIRST = re.compile(r"# (\w+) \(([^)]+)\): \S.*")
FUNCTION = re.compile(r'^( *)(?:pub(?:\(crate\))? )?(?:extern "C" )?fn (\w+)', re.M)
BLOCK = re.compile(r"^(?:pub(?:\(crate\))? )?(trait|impl\b(?:<[^{}]*?(?<!-)>(?= ))?) ([^{}]*[^{}\s])\s*\{.*?^\}", re.M | re.S)
BRACKET = re.compile(r"[(\[{}\])]|;")
CLAUSE = re.compile(r"\b(?:requires|ensures|decreases)(?: \w+)?\s*")


class Misuse(Exception):
    """Why a wrong program cannot be read or tried."""


class Program(typing.NamedTuple):
    """A wrong program. Its functions are those that its first line names."""
    crate: str
    file: pathlib.Path
    name: str
    functions: list
    lines: list

    def replacements(self):
        """Each file, old text and new text."""
        file = old = None
        for line in self.lines:
            if line.startswith("file: "):
                file = line.removeprefix("file: ")
            elif line.startswith("old: "):
                old = line.removeprefix("old: ")
            elif line.startswith("new:"):
                if not file or not old:
                    raise Misuse(f"{self.file}: {self.name}: a 'new:' line has no 'file:' and 'old:' line before it")
                yield file, old, line.removeprefix("new:").removeprefix(" ")
                old = None

    def changed(self):
        """The functions whose text it changes, by module and place; None stands for a text outside of functions."""
        for file, old, _ in self.replacements():
            yield function_around(pathlib.Path("crates", self.crate, file), old) if file.startswith("src/") else None


class Block(typing.NamedTuple):
    """A trait, or an `impl` with its trait if it has one: where it stands, its kind with its own parameters, its type and its text."""
    begin: int
    end: int
    kind: str
    trait: typing.Optional[str]
    owner: str
    text: str

    def place(self):
        """What the prover calls it: by the words of its type, its trait's name and the words of the trait's arguments, without the own parameters."""
        if not self.trait:
            return bare(self.owner)
        own = re.findall(r"[<,] *(?:const )?(\w+)", self.kind)
        words = re.findall(r"\w+", re.sub(r"'\w+|\w+::", "", f"{self.owner} {self.trait}".replace("&", " Ref ")))
        return "".join(word[:1].upper() + word[1:] for word in words if word not in own)


class Function(typing.NamedTuple):
    """A function: where it begins, its name, which begins with that of the type or trait that has it, what the prover calls it, its text
    up to the body, its text, and the trait or `impl` that it stands in."""
    begin: int
    name: str
    place: str
    head: str
    text: str
    block: typing.Optional[Block]


def bare(name):
    """The name of a type without its path and its arguments."""
    return re.sub(r"<.*", "", name).rpartition("::")[2].lstrip("&")


def blocks_in(whole):
    """The traits and the `impl`s of a text."""
    for found in BLOCK.finditer(whole):
        kind, said = found[1], found[2].split("\nwhere ")[0]
        if kind == "trait":
            yield Block(*found.span(), kind, None, re.split(r"[<:\s]", said)[0], found[0])
        else:
            trait, _, owner = said.rpartition(" for ")
            yield Block(*found.span(), kind, trait or None, owner, found[0])


def end_of_head(whole, at):
    """Where the body of a function begins whose text begins at a place, or where it ends if it has none."""
    depth = 0
    for found in BRACKET.finditer(whole, at):
        if depth == 0 and found[0] == ";":
            return found.end()
        if depth == 0 and found[0] == "{" and not any(clause.end() == found.start() for clause in CLAUSE.finditer(whole, at, found.start())):
            return found.start()
        depth += {"(": 1, "[": 1, "{": 1, ";": 0}.get(found[0], -1)
    return len(whole)


def end_of_body(whole, at, indent):
    """Where a body ends that begins at a place, if there is one: on its line, or at the brace that stands as far in as its function."""
    if not whole.startswith("{", at):
        return at
    line = re.compile(r".*\}$|", re.M).match(whole, at)
    end = re.compile(rf"^{indent}\}}", re.M).search(whole, at)
    return line.end() if line[0] else end.end() if end else len(whole)


def functions_in(source):
    """The functions of a file."""
    return functions_of_text(source.read_text())


def functions_of_text(whole):
    """The functions of the text of a file."""
    blocks = list(blocks_in(whole))
    for found in FUNCTION.finditer(whole):
        block = next((block for block in blocks if block.begin < found.start() < block.end), None)
        body = end_of_head(whole, found.end())
        owner, place = ([bare(block.owner)], [block.place()]) if block else ([], [])
        yield Function(found.start(), "::".join([*owner, found[2]]), "::".join([*place, found[2]]), whole[found.start():body].rstrip(),
                       whole[found.start():end_of_body(whole, body, found[1])], block)


def function_around(source, text):
    """The module and place of the function that has a text, if one has it."""
    at = source.read_text().find(text)
    return next(((source.stem, it.place) for it in functions_in(source) if it.begin <= at < it.begin + len(it.text)), None)


def function_text(crate, function):
    """The text of a function that is given by module and place."""
    module, wanted = function
    return next(it.text for it in functions_in(pathlib.Path("crates", crate, "src", f"{module}.rt")) if it.place == wanted)


def functions_of(crate):
    """The functions of a crate, by module and place, and the name of each."""
    sources = sorted(pathlib.Path("crates", crate, "src").glob("*.rt"))
    return {(source.stem, it.place): it.name for source in sources for it in functions_in(source)}


def programs_in(file):
    """The wrong programs of a file."""
    programs = []
    for line in file.read_text().splitlines():
        if line.startswith("#"):
            found = FIRST.fullmatch(line)
            if not found:
                raise Misuse(f"{file}: '{line}' is not '# NAME (FUNCTION, FUNCTION): what it does'")
            programs.append(Program(file.parts[-3], file, found[1], found[2].split(", "), []))
        elif line and not programs:
            raise Misuse(f"{file}: '{line}' stands before the first line '# NAME (FUNCTION): what it does'")
        elif line:
            programs[-1].lines.append(line)
    return programs


def files_of(crate="*"):
    """The files with wrong programs of a crate, or of all."""
    return sorted(pathlib.Path("crates").glob(f"{crate}/must-fail/*.edit"))


def count_in(file):
    """How many wrong programs a file has."""
    return sum(line.startswith("# ") for line in file.read_text().splitlines())


def programs_of(crate="*"):
    """The wrong programs of a crate, or of all."""
    return [program for file in files_of(crate) for program in programs_in(file)]


def main(arguments):
    if arguments in (["-h"], ["--help"]):
        print(__doc__)
        return 0
    try:
        for crate in arguments or ["*"]:
            if not files_of(crate):
                raise Misuse(f"there is no crate {crate} with wrong programs")
            for program in programs_of(crate):
                print(program.crate, program.file.stem, program.name, ", ".join(program.functions), sep="\t")
    except Misuse as misuse:
        print(f"tools/wrong_programs.py: {misuse}", file=sys.stderr)
        return 2
    return 0


if __name__ == "__main__":
    sys.exit(main(sys.argv[1:]))
