"""The files of wrong programs: each can be read, and those that share a file do not hide each other.

A file of one wrong program has its name. No two of a crate have one name. Those that docs/STATEMENT.md names are alone in their files.
No two of a file change one function: of its errors nobody could say whose they are. None changes a function beside one that it calls,
directly or through others: the prover does not look at the caller. And where one changes a constant or a definition, no function that
another changes speaks of it."""
import collections
import itertools
import pathlib
import re
import sys

from refusals import shown_by
from wrong_programs import Misuse, files_of, function_text, functions_of, programs_in, programs_of

STATEMENT = pathlib.Path("docs/STATEMENT.md")
HEAD = re.compile(r"(?:(?:unfoldable|abbrev|pub(?:\(crate\))?|record|const) )*([^\s:]+)")


def definitions_in(path):
    """The name and text of each definition of a file: what begins at the margin, up to what begins there next."""
    for text in re.split(r"^(?=[^\s}\-/])", path.read_text(), flags=re.M):
        found = HEAD.match(text)
        if found and found[1] != "use":
            yield found[1], text


def definitions_changed(program):
    """The constants and definitions that a wrong program changes."""
    for (file, old, _), function in zip(program.replacements(), program.changed()):
        if not function:
            path = pathlib.Path("crates", program.crate, file)
            yield from (name for name, text in definitions_in(path) if old in text)


def speak_of(names, text):
    return any(re.search(rf"(?<![\w'-]){re.escape(name)}(?![\w'-])", text) for name in names)


def with_those_above(crate, names):
    """Definitions, and all of the crate that speak of them, also through others."""
    texts = collections.defaultdict(str)
    for path in sorted(pathlib.Path("crates", crate, "specs").rglob("*.antt")):
        for name, text in definitions_in(path):
            texts[name] += text
    known, before = set(names), None
    while known != before:
        before = set(known)
        known |= {name for name, text in texts.items() if speak_of(known, text)}
    return known


def call_of(module, name):
    """How a function of a module is called: one of a type or a trait also on a value and on a type parameter, and `from` where `?` turns an error."""
    owner, _, last = name.rpartition("::")
    if last in ("from", "try_from"):
        return re.compile(rf"\b(?:{owner}|Self)::{last}\(|\.(?:try_)?into\(" + (r"|\?" if last == "from" else ""))
    return re.compile(rf"[.:]{last}\(" if owner else rf"(?:\b{module}::|\bcrate::|(?<!:)\b){last}\(")


def called_by(crate, function):
    """The functions of its crate that a function calls, also through others. Which of several `from` of a type is called its text does not say,
    and none of them counts: that one is hidden shows where the wrong programs are tried (tools/refusals.py)."""
    known = functions_of(crate)
    many = {name for name, count in collections.Counter(known.values()).items() if count > 1}
    found, todo = set(), [function]
    while todo:
        text = function_text(crate, todo.pop())
        calls = {other for other, name in known.items() if name not in many and call_of(other[0], name).search(text)}
        todo += calls - found
        found |= calls
    return found - {function}


def faults_of(program):
    """What is wrong with a wrong program by itself."""
    pairs = list(program.replacements())
    if not pairs:
        yield "there is no pair of an 'old:' and a 'new:' line"
    for file, old, _ in pairs:
        path = pathlib.Path("crates", program.crate, file)
        if not path.is_file() or path.read_text().count(old) != 1:
            yield f"'{old}' does not stand once in {file}"
    known = set(functions_of(program.crate).values())
    for name in program.functions if known else []:
        if name not in known:
            yield f"{program.crate} has no function {name}"


def faults_between(one, other):
    """Why two wrong programs cannot share a file."""
    changed, beside = (sorted(shown_by(program, False)[0]) for program in (one, other))
    above = with_those_above(one.crate, definitions_changed(one))
    for function in beside:
        if function in changed:
            yield f"changes {function[1]}, as {other.name} does"
        if speak_of(above, function_text(other.crate, function)):
            yield f"changes what {function[1]} of {other.name} speaks of"
        if all(function in called_by(one.crate, caller) for caller in changed):
            yield f"changes {changed[0][1]}, which calls {function[1]} of {other.name}"


def fault_of_name(file, programs, names):
    """What is wrong with the name of a file, if anything; `names` are those of its crate's wrong programs."""
    if not programs:
        return "there is no wrong program"
    if len(programs) == 1:
        return None if file.stem == programs[0].name else "its name is not that of its one wrong program"
    return "its name is that of a wrong program" if file.stem in names else None


def faults_of_sharing(programs):
    """Why wrong programs cannot share a file."""
    signed = set(re.findall(r"`(\w+)`", STATEMENT.read_text()))
    for one, other in itertools.permutations(programs, 2):
        yield from (f"{one.name}: {fault}" for fault in faults_between(one, other))
    for program in programs:
        if program.name in signed:
            yield f"{program.name}: {STATEMENT} names it, and it is not alone in its file"


def faults_in(file):
    """All that is wrong with a file. Whether its wrong programs can share it is asked once each of them is right by itself."""
    programs = programs_in(file)
    names = [program.name for program in programs_of(file.parts[-3])]
    faults = [fault for fault in [fault_of_name(file, programs, names)] if fault]
    for program in programs:
        faults += [f"{program.name}: {fault}" for fault in faults_of(program)]
        if names.count(program.name) > 1:
            faults.append(f"{program.name}: another of {program.crate} has this name")
    return faults or (faults_of_sharing(programs) if len(programs) > 1 else [])


def main():
    files = files_of()
    try:
        faults = [f"{file}: {fault}" for file in files for fault in faults_in(file)]
    except Misuse as misuse:
        faults = [str(misuse)]
    for fault in faults:
        print(fault)
    return 1 if faults or not files else 0


if __name__ == "__main__":
    sys.exit(main())
