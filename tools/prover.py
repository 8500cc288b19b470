#!/usr/bin/env python3
"""Calls the prover itself, for what `rt` has no command for: over the libraries as they are built, it proves no library a second time.

    tools/prover.py build CRATE      proves a static library and compiles it: target/staticlib/CRATE.o, beside it CRATE.bc, the LLVM
                                     module that it was made of, and CRATE.log, what the prover said
    tools/prover.py check CRATE      proves a crate, and prints what the prover says
    tools/prover.py note CRATE..     notes that `rt ci` has passed over the crates as they stand, and which libraries it has left: none of these
                                     crates, which had one before, since it puts that back

`rt lib` proves what stands below a crate anew after an `rt ci`, whose libraries it does not take; and it keeps no module. The prover is
called with the words of `rt`, and compiles for any x86-64 processor. Not to be run beside an `rt` in the same repository, since it does not
wait for it. Status 0, or 1 where the crate is not proved, or 2 for wrong use. To be run in the repository's root."""
import hashlib
import os
import pathlib
import re
import subprocess
import sys
import tempfile

sys.dont_write_bytecode = True

PARTS = ("src", "specs", "proofs")
NOTED = pathlib.Path("target/proved.txt")
MADE = pathlib.Path("target/staticlib")
LINE = re.compile(r"(\w+)( staticlib)?(?: \w+=\S+)* *:(.*)")


def lines_of_crates():
    """The name, the kind and the words after the colon of each line of crates.txt."""
    lines = [LINE.match(line.split("#")[0]) for line in pathlib.Path("crates.txt").read_text().splitlines()]
    return [(found[1], bool(found[2]), found[3].split()) for found in lines if found]


def listed():
    """Each crate of crates.txt and what it stands on."""
    return {name: below for name, _, below in lines_of_crates()}


def static_libraries():
    """The crates that C calls."""
    return [name for name, is_static, _ in lines_of_crates() if is_static]


def below(crate):
    """The crates of the repository that a crate stands on, the lowest first."""
    crates, found = listed(), []
    for name in crates[crate]:
        if name in crates:
            found += [it for it in [*below(name), name] if it not in found]
    return found


def kit():
    """The folder of the toolchain."""
    return pathlib.Path(subprocess.run(["rt", "doc"], check=True, capture_output=True, text=True).stdout.strip()).parent


def texts_sum(names):
    """A sum over the toolchain, crates.txt and the files of some crates that a proof reads."""
    found = hashlib.sha256(subprocess.run(["rt", "version"], check=True, capture_output=True).stdout)
    found.update(repr([it for it in lines_of_crates() if it[0] in names]).encode())
    for name in names:
        for part in PARTS:
            for path in sorted(pathlib.Path("crates", name, part).rglob("*")):
                if path.is_file():
                    found.update(repr((str(path), path.read_bytes())).encode())
    return found.hexdigest()


def library(name):
    return pathlib.Path("crates", name, "out/rlib")


def built_sum(name):
    """A sum over a library as it was built: its file `format` has the sums of the others."""
    path = library(name) / f"{name}.rlib/format"
    return hashlib.sha256(path.read_bytes()).hexdigest() if path.is_file() else "none"


def noted():
    """Of each library that a gate has left, the sum of the texts that it was made of, and its own."""
    lines = map(str.split, NOTED.read_text().splitlines() if NOTED.is_file() else [])
    return {words[0]: tuple(words[1:]) for words in lines}


def note(before):
    found = {name: sums for name, sums in noted().items() if name in before}
    found.update({name: (texts_sum([*below(name), name]), built_sum(name)) for name in listed() if name not in before})
    NOTED.parent.mkdir(exist_ok=True)
    NOTED.write_text("".join(f"{name} {texts} {built}\n" for name, (texts, built) in found.items() if built != "none"))


def are_of_the_gate(names):
    """Whether the libraries of some crates are those that `rt ci` made of the crates as they stand. Those of `rt lib` have a stamp."""
    known = noted()
    return all(not (library(name) / "stamp").exists() and built_sum(name) != "none" and
               known.get(name) == (texts_sum([*below(name), name]), built_sum(name)) for name in names)


def make_ready(crate):
    """Has the libraries below a crate built as they stand. Gives the status of the prover, and what it said."""
    if are_of_the_gate(below(crate)):
        return 0, ""
    said = ""
    for name in [it for it in listed()[crate] if it in listed()]:
        done = subprocess.run(["rt", "lib"], cwd=f"crates/{name}", stdout=subprocess.PIPE, stderr=subprocess.STDOUT, text=True, check=False,
                              errors="replace")
        said += done.stdout
        if done.returncode != 0:
            return done.returncode, said
    return 0, said


def words_of(crate):
    """The words that `rt` calls the prover with for a crate."""
    home, root, crates = kit(), pathlib.Path.cwd(), listed()
    is_program = pathlib.Path("crates", crate, "src/main.rt").exists()
    words = ["--crate-name", crate, "src/main.rt" if is_program else "src/lib.rt", "--extern", f"std={home}/rlibs/std.rlib"]
    for name in crates[crate]:
        place = root / library(name) if name in crates else home / "rlibs"
        words += ["--extern", f"{name}={place}/{name}.rlib"]
    words += ["-L", f"dependency={home}/rlibs"]
    for name in below(crate):
        words += ["-L", f"dependency={root / library(name)}"]
    words += ["--antt-project", f"{home}/rattle/logic/antt-project.json", "--logic-built", f"{home}/logic_built", "--links", f"{crate}="]
    return words + (["--crate-type", "staticlib", "--cpu", "x86-64"] if crate in static_libraries() else [])


def over_kept(crate):
    """Words that have the prover go on from what `rt check` has kept of a crate, if it has."""
    place = pathlib.Path("crates", crate, "out/incremental").resolve()
    return ["--incremental", place] if place.is_dir() else []


def called(verb, crate, folder, *more):
    """What the prover does with a crate whose src, specs and proofs stand in a folder."""
    return subprocess.run([kit() / "bin/rattle", verb, *words_of(crate), *more], cwd=folder, stdin=subprocess.DEVNULL,
                          stdout=subprocess.PIPE, stderr=subprocess.STDOUT, text=True, check=False, errors="replace")


def keeping_toolchain(room):
    """A toolchain by links, but that its clang leaves a copy of the module that it compiles: ROOM/module.bc. What it compiles is the same.
    It stands outside of the repository, where `rt ci` takes no link."""
    own = kit() / "toolchain"
    (room / "toolchain/bin").mkdir(parents=True)
    (room / "toolchain/lib").symlink_to(own / "lib")
    for tool in (own / "bin").iterdir():
        if tool.name != "clang":
            (room / "toolchain/bin" / tool.name).symlink_to(tool)
    clang = room / "toolchain/bin/clang"
    clang.write_text(f'#!/bin/sh\nfor word in "$@"; do\n    case $word in *.bc) cp "$word" "{room}/module.bc" ;; esac\ndone\nexec "{own}/bin/clang" "$@"\n')
    clang.chmod(0o755)
    return room / "toolchain"


def build(crate):
    """Proves and compiles a static library."""
    MADE.mkdir(parents=True, exist_ok=True)
    log = MADE / f"{crate}.log"
    status, said = make_ready(crate)
    with tempfile.TemporaryDirectory() as place:
        room = pathlib.Path(place)
        if status == 0:
            done = called("build", crate, f"crates/{crate}", "--jobs", str(len(os.sched_getaffinity(0))), "--backend", "llvm", "--toolchain",
                          keeping_toolchain(room), "-o", room / "made.a", *over_kept(crate))
            status, said = done.returncode, said + done.stdout
        log.write_text(said)
        if status != 0:
            print(said[-3000:], f"{crate} was not built; {log} has all that the prover said", sep="\n", file=sys.stderr)
            return 1
        subprocess.run(["ar", "x", room / "made.a"], cwd=room, check=True)
        (MADE / f"{crate}.o").write_bytes((room / f"{crate}.o").read_bytes())
        (MADE / f"{crate}.bc").write_bytes((room / "module.bc").read_bytes())
    return 0


def check(crate):
    """Proves a crate."""
    status, said = make_ready(crate)
    if status == 0:
        done = called("check", crate, f"crates/{crate}", "--jobs", "2", *over_kept(crate))
        status, said = done.returncode, done.stdout
    print(said, end="")
    return 1 if status else 0


def main(arguments):
    if arguments in (["-h"], ["--help"]):
        print(__doc__)
        return 0
    verb, names = arguments[:1], arguments[1:]
    if verb == ["note"]:
        note(names)
        return 0
    if len(names) != 1 or names[0] not in (static_libraries() if verb == ["build"] else listed()) or verb not in (["build"], ["check"]):
        print(__doc__, file=sys.stderr)
        return 2
    return build(names[0]) if verb == ["build"] else check(names[0])


if __name__ == "__main__":
    sys.exit(main(sys.argv[1:]))
