#!/usr/bin/env python3
"""Tells which definitions, contracts, proofs and wrong programs have moved since a commit, and how many stayed: for the note of a landing.

    tools/moved.py BASE           from the commit BASE to the files as they stand
    tools/moved.py BASE LATER     from the commit BASE to the commit LATER

- A definition is one of the files in `specs/`, or a type, a trait, a constant or a static of a source. It has moved where its text is another;
  comments and line ends do not count.
- A contract is the head of a function, up to its body: its parameters, and what it asks and promises. To it belong the ghost members of the
  `impl` of a trait that it stands in.
- A proof is a file in `proofs/`. All else may change its file within its crate, and has stayed.

Status 0, or 2 for wrong use. To be run in the repository."""
import io
import pathlib
import re
import subprocess
import sys
import tarfile

sys.dont_write_bytecode = True
from wrong_programs import blocks_in, functions_of_text

COMMENT = re.compile(r"^\s*(?:--|//).*\n", re.M)
ITEM = re.compile(r"^(?:(?:unfoldable |abbrev )?(?:pub )?(record )?([^\s():]+) :\s|(?:unfoldable |abbrev )?(?:pub )?(record|data) (\S+) )")
IN_MODULE = re.compile(r"^  (?:unfoldable |abbrev )?pub ([^\s():]+) :\s")
TYPE = re.compile(r"^(?:pub(?:\(crate\))? )?(struct|enum|const|static|type) (\w+).*?(?:^\}|;$)", re.M | re.S)
GHOST = re.compile(r"^ +ghost \w+ = .*?;$", re.M | re.S)
PROGRAM = re.compile(r"^# (\w+) \(.*?(?=^# \w+ \(|\Z)", re.M | re.S)
SUFFIXES = (".rt", ".antt", ".edit")


class Misuse(Exception):
    """Why nothing can be told."""


def files_at(commit):
    """The texts of the crates at a commit, by their paths."""
    made = subprocess.run(["git", "archive", "--format=tar", commit, "crates"], capture_output=True)
    if made.returncode:
        raise Misuse(f"'{commit}' is no commit that has crates: {made.stderr.decode().strip()}")
    with tarfile.open(fileobj=io.BytesIO(made.stdout)) as archive:
        return {entry.name: archive.extractfile(entry).read().decode() for entry in archive
                if entry.name.endswith(SUFFIXES)}


def files_here():
    named = subprocess.run(["git", "ls-files", "-co", "--exclude-standard", "crates"], check=True, capture_output=True, text=True)
    return {name: pathlib.Path(name).read_text() for name in named.stdout.splitlines()
            if name.endswith(SUFFIXES) and pathlib.Path(name).is_file()}


def folded(text):
    return " ".join(text.split())


def defined_in(text):
    """The definitions of a file of `specs/`: name and text. What stands within a record or a data type is its own."""
    name, lines, within_record = None, [], False
    for line in COMMENT.sub("", text).splitlines():
        found = ITEM.match(line)
        inner = None if within_record else IN_MODULE.match(line)
        if found or inner or not line.startswith((" ", name or " ")):
            if name:
                yield name, folded("\n".join(lines))
            name, lines = (inner.group(1) if inner else (found.group(2) or found.group(4)) if found else None), []
            within_record = bool(found and (found.group(1) or found.group(3))) or within_record and bool(inner)
        lines.append(line)
    if name:
        yield name, folded("\n".join(lines))


def parts_of(path, text):
    """What a file has: kind, name and text of each."""
    crate, folder = pathlib.Path(path).parts[1:3]
    if folder == "specs":
        for name, definition in defined_in(text):
            yield "definitions", f"`{name}` of `{crate}`", definition
    elif folder == "proofs":
        yield "proofs", f"`{path}`", text
    elif folder == "must-fail":
        for found in PROGRAM.finditer(text):
            yield "wrong programs", f"`{found.group(1)}` of `{crate}`", folded(found.group())
    elif folder == "src":
        bare = COMMENT.sub("", text)
        for found in TYPE.finditer(bare):
            yield "definitions", f"`{found.group(2)}` of `{crate}`", folded(found.group())
        for block in blocks_in(bare):
            if block.kind == "trait":
                yield "definitions", f"`{block.owner}` of `{crate}`", folded(block.text)
        for function in functions_of_text(bare):
            ghosts = GHOST.findall(function.block.text) if function.block else []
            yield "contracts", f"`{function.name}` of `{crate}`", folded("\n".join([*ghosts, function.head]))


def collected(files):
    """What all files have, by kind and name; of one name several texts are kept together."""
    kinds = {kind: {} for kind in ("definitions", "contracts", "proofs", "wrong programs")}
    for path, text in sorted(files.items()):
        for kind, name, found in parts_of(path, text):
            kinds[kind].setdefault(name, []).append(found)
    return kinds


def told(kind, before, after):
    """The lines on one kind: how many, then each that has moved."""
    new = [name for name in after if name not in before]
    gone = [name for name in before if name not in after]
    other = [name for name in after if name in before and sorted(after[name]) != sorted(before[name])]
    yield f"{kind}: {len(new)} new, {len(other)} changed, {len(gone)} gone, {len(after) - len(new) - len(other)} stayed"
    for word, names in (("new", new), ("changed", other), ("gone", gone)):
        yield from (f"  {word}: {name}" for name in names)


def main(arguments):
    if arguments in (["-h"], ["--help"]):
        print(__doc__)
        return 0
    if len(arguments) not in (1, 2) or arguments[0].startswith("-"):
        print(__doc__, file=sys.stderr)
        return 2
    try:
        before = collected(files_at(arguments[0]))
        after = collected(files_at(arguments[1]) if len(arguments) == 2 else files_here())
    except Misuse as fault:
        print(f"moved: {fault}", file=sys.stderr)
        return 2
    for kind in before:
        print("\n".join(told(kind, before[kind], after[kind])))
    return 0


if __name__ == "__main__":
    sys.exit(main(sys.argv[1:]))
