#!/usr/bin/env python3
"""Brings the must-fail edits over to today's text, each with the same wrong meaning.

usage: tools/port/port_edits.py [--check]      at the top of the repository, after port.py and respell.py; --check writes nothing

An old text that stands stays. Else it is turned as port.py turned the file: projections are written tight, names of the repository and of the library have
today's spelling and place. A new text is turned alike. What no rule turns stands in BY_HAND. A second run changes nothing. Prints each pair that changed,
and what does not stand after it; status 1 if any does not.
"""
import os
import re
import sys

sys.dont_write_bytecode = True
sys.path.insert(0, os.path.dirname(os.path.realpath(__file__)))
import edits_stand
import respell

# For a wrong program, the old text of a pair (its beginning), and what the pair is today.
BY_HAND = {
    ("fuse_256_not_set", "use Prim.Native.Nat.{ℕ}"): ("Prelude.{ℕ, not", "Prelude.{ℕ, ◌%◌, not"),
    ("last_entry_told", "use Prim.Native.Nat.{ℕ, _*_}"): ("Prelude.{ℕ, ◌*◌", "Prelude.{ℕ, ◌+◌, ◌-◌, ◌*◌, ◌%◌"),
    ("record_not_updated", "left (call"): ("left (call_numbered result) session.new", "left (call_numbered result) session.old"),
    ("wait_left_out", "(now (window"): ("window.old) wait packet.now", "window.old) 0 packet.now"),
    ("none_kept_as_blank", "r ≡"): ("result ≡ no_kept }", "result ≡  blank_kept }"),
    ("blank_kept_as_none", "r ≡"): ("result ≡ blank_kept }", "result ≡ no_kept }"),
}
PRELUDE = "Rattle.std.specs.Prelude."
# Words of the library that have another name or place.
MOVED = {
    "lib.Seq.sets": "Rattle.std.proofs.lemmas.List.Edits.sets",
    "mathlib.Core.List.[]": PRELUDE + "[]",
}
RESPELLED = {"getD": "get_or"}
ATOM = re.compile(r"""[^\s(){};,]+""")
BREAKS = ("λ", "let", "in", "where", "→", ":", "=")


def projections(text):
    """Old projections, which stand apart and take the whole application before them, written tight: 'f x .p' as '(f x).p', '(x .p)' as 'x.p'."""
    text = re.sub(r"«([^»]*)»", r"\1", text)
    tokens = re.findall(r"\s+|[(){};,]|[^\s(){};,]+", text)
    made, at = run(tokens, 0, None)
    return made


def run(tokens, at, close):
    """The tokens up to the closing bracket; the text with projections written tight."""
    out, apart = [], []          # what is done; the application that is being read: texts of its parts, spaces between

    def end_of_application():
        out.append("".join(apart))
        apart.clear()

    while at < len(tokens):
        it = tokens[at]
        if it in (")", "}"):
            break
        if it in ("(", "{"):
            inner, past = run(tokens, at + 1, it)
            closed = past < len(tokens)
            whole = "".join(tokens[at + 1:past])
            end = tokens[past] if closed else ""
            if it == "(" and closed and re.search(r"(?:^|\s)\.\w", top_level(whole)) and tight(inner):
                apart.append(inner)
            else:
                apart.append(it + inner + end)
            at = past + 1
            continue
        if it.isspace():
            apart.append(it)
        elif it in (";", ",") or it in BREAKS or is_operator(it) or (it.endswith(".") and len(it) > 1):
            end_of_application()
            out.append(it)
        elif it.startswith(".") and len(it) > 1 and apart and not apart[-1].isspace():
            apart[-1] += it
        elif it.startswith(".") and len(it) > 1:
            project(apart, it)
        else:
            apart.append(it)
        at += 1
    end_of_application()
    if at < len(tokens) and close is None:
        # a bracket that the fragment does not open
        rest, past = run(tokens, at + 1, None)
        return "".join(out) + tokens[at] + rest, past
    return "".join(out), at


def top_level(text):
    """A text without what stands in brackets within it."""
    out, depth = [], 0
    for c in text:
        depth += c in "({"
        if not depth:
            out.append(c)
        depth -= c in ")}"
    return "".join(out)


def tight(text):
    """Whether a text is one name, or one bracket, with projections behind it."""
    depth = 0
    for c in text:
        depth += c in "({"
        if c.isspace() and not depth:
            return False
        depth -= c in ")}"
    return True


def is_operator(token):
    return not re.search(r"[\w\[\]\"']", token)


def project(apart, field):
    """Puts a projection behind the application that was read."""
    while apart and apart[-1].isspace():
        apart.pop()
    first = next((i for i, it in enumerate(apart) if not it.isspace()), len(apart))
    lead, parts = apart[:first], apart[first:]
    while parts and parts[0] in ("pub", "record"):
        lead += parts[:2]
        parts = parts[2:]
    text = "".join(parts)
    apart[:] = lead + [(text if tight(text) else f"({text})") + field]


def names_of(text, names, known):
    text = re.sub(r"Rattle·(\w+)·specs\.specs\.", r"Rattle.\1.specs.", text)
    text = re.sub(r"Rattle·(\w+)\.specs\.", r"Rattle.\1.specs.", text)
    text = text.replace(".the-variants.", ".TheVariants.")
    for old, new in MOVED.items():
        text = text.replace(old, new)
    text = re.sub(r"\bPrim\.Native\.Nat\._(\S+?)_(?=\s)", PRELUDE + r"◌\1◌", text)
    text = re.sub(r"\b(?:lib|mathlib\.Core|Prim\.Native)\.(?:\w+\.)*(\w+)", lambda it: PRELUDE + RESPELLED.get(it[1], it[1]), text)

    def word(it):
        if it[0] in RESPELLED:
            return RESPELLED[it[0]]
        new = names.table.get(it[0]) or respell.in_snake_case(it[0])
        return new if new in known else it[0]
    return re.sub(r"(?<![\w'-])[a-z][a-z0-9]*[A-Z][A-Za-z0-9]*(?![\w'-])", word, text)


def main(argv):
    if argv in (["-h"], ["--help"]):
        print(__doc__)
        return 0
    crates = sorted(c for c in os.listdir("crates") if os.path.isdir(os.path.join("crates", c)))
    names = respell.Names(crates)
    known = {it for p in names.paths for it in names.declared[p]} | {it for p in names.paths for it in names.imported[p]}
    changed, wrong = 0, 0
    for crate, edit in edits_stand.edits_below("."):
        lines = respell.read(edit).split("\n")
        texts, path, program, old_at = {}, "", "", None
        for at, line in enumerate(lines):
            if line.startswith("# "):
                program = line[2:].split(" ")[0]
            elif line.startswith("file: "):
                path = os.path.join("crates", crate, line[len("file: "):].strip())
                if path not in texts:
                    texts[path] = respell.read(path) if os.path.isfile(path) else ""
            elif line.startswith("old: "):
                old_at = at
            elif line.startswith("new:") and old_at is not None:
                old, new = lines[old_at][len("old: "):], line[len("new:"):].removeprefix(" ")
                turned = next((by for (of, begins), by in BY_HAND.items() if of == program and old.startswith(begins)), None)
                if turned:
                    old2, new2 = turned
                elif path.endswith(".antt"):
                    old2, new2 = names_of(projections(old), names, known), names_of(projections(new), names, known)
                    if texts[path].count(old) == 1:
                        old2 = old
                else:
                    old2, new2 = old, new
                if (old, new) != (old2, new2):
                    changed += 1
                    print(f"{edit}: {program}\n    old: {old2}\n    new: {new2}")
                    lines[old_at], lines[at] = "old: " + old2, "new: " + new2
                if texts[path].count(old2) != 1:
                    wrong += 1
                    print(f"by hand: {edit}: {program}: in {path} {texts[path].count(old2)} times: {old2}")
                else:
                    texts[path] = texts[path].replace(old2, new2)
                old_at = None
        if "--check" not in argv:
            with open(edit, "w", encoding="utf-8") as f:
                f.write("\n".join(lines))
    print(f"port_edits: {changed} pairs {'would change' if '--check' in argv else 'changed'}; {wrong} do not stand")
    return 1 if wrong else 0


if __name__ == "__main__":
    raise SystemExit(main(sys.argv[1:]))
