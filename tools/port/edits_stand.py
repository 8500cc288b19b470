#!/usr/bin/env python3
"""Says which must-fail edits stand: each 'old:' text once in its file, pair after pair, as rt applies them.

usage: tools/port/edits_stand.py [--all] [TOP]      TOP is the top of a repository (default: the folder it is run in)

Prints a line for each file of edits that does not stand, with its first pair that does not (--all: each such pair; a later pair is tried on the text
without the failed ones) and the line of today that is most like it, and counts at the end: files, wrong programs ('# name' lines) and pairs.
Exit status 1 if one does not stand.
"""
import difflib
import os
import sys


def pairs_of(text):
    """(program, path, old, new, line) of each pair of an edit file, read as rt reads it."""
    program, path, old = "", "", None
    for number, line in enumerate(text.split("\n"), 1):
        if line.startswith("# "):
            program = line[2:].split(" ")[0].rstrip(":")
        elif line.startswith("file: "):
            path = line[len("file: "):].strip()
        elif line.startswith("old: "):
            old = line[len("old: "):]
        elif line.startswith("new:") and old is not None:
            yield program, path, old, line[len("new:"):].removeprefix(" "), number
            old = None


def nearest(text, wanted):
    """The line of a text that is most like what is wanted, and how much."""
    best, share = "", 0.0
    for line in text.split("\n"):
        it = difflib.SequenceMatcher(None, line.strip(), wanted.strip(), autojunk=False)
        if line.strip() and it.real_quick_ratio() > share and it.quick_ratio() > share and it.ratio() > share:
            best, share = line.strip(), it.ratio()
    return best, share


def edits_below(top):
    crates = os.path.join(top, "crates")
    for crate in sorted(os.listdir(crates)):
        folder = os.path.join(crates, crate, "must-fail")
        if os.path.isdir(folder):
            for name in sorted(os.listdir(folder)):
                if name.endswith(".edit"):
                    yield crate, os.path.join(folder, name)


def look(top, crate, edit):
    """The pairs of an edit that do not stand, each with how often its old text is there and the file's text; and all its pairs."""
    with open(edit, encoding="utf-8") as f:
        pairs = list(pairs_of(f.read()))
    texts, failed = {}, []
    for pair in pairs:
        program, path, old, new, number = pair
        where = os.path.join(top, "crates", crate, path)
        if path not in texts:
            texts[path] = ""
            if os.path.isfile(where):
                with open(where, encoding="utf-8") as f:
                    texts[path] = f.read()
        found = texts[path].count(old)
        if found != 1:
            failed.append((pair, found, texts[path]))
        else:
            texts[path] = texts[path].replace(old, new)
    return failed, pairs


def main(argv):
    if argv in (["-h"], ["--help"]):
        print(__doc__)
        return 0
    whole = "--all" in argv
    rest = [a for a in argv if a != "--all"]
    top = rest[0] if rest else "."
    files = [0, 0]
    programs, broken, pairs_all, pairs_failed = 0, 0, 0, 0
    for crate, edit in edits_below(top):
        failed, pairs = look(top, crate, edit)
        programs += len({p[0] for p in pairs})
        broken += len({p[0][0] for p in failed})
        pairs_all += len(pairs)
        pairs_failed += len(failed)
        files[bool(failed)] += 1
        for (program, path, old, new, number), found, text in failed if whole else failed[:1]:
            line, share = nearest(text, old)
            print(f"{os.path.relpath(edit, top)}:{number - 1}: {program}: in {path} {found} times: {old.strip()}")
            if not found:
                print(f"    most like it ({share:.2f}): {line}")
    print(f"files: {files[0]} stand, {files[1]} do not; wrong programs: {programs - broken} stand, {broken} do not; pairs: {pairs_all - pairs_failed} stand, {pairs_failed} do not")
    return 1 if files[1] else 0


if __name__ == "__main__":
    raise SystemExit(main(sys.argv[1:]))
