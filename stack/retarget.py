"""Makes of the LLVM module of a proved crate, which is for x86-64, one for a core whose pointers have 4 bytes.

    python3 -B stack/retarget.py MODULE.ll OUT.ll

What is changed: the target and its layout go, and with them the attributes that name x86-64; an exported function takes the size of
an area as the core's size_t, and widens it to the 64 bits of Rattle's usize; an area may begin at the address 0, as MAIN does on a
board, so an exported function no longer takes another place for one that begins there; a pair that is read whole is read in its two parts,
each where it stands on x86-64, since there a pointer behind a byte stands elsewhere. What is refused: all that could mean something
else there. That is, a pointer that is read, stored or compared as a number, a load or store without its own alignment, a global that is
not a constant of plain bytes, a call of anything but the module's functions and the intrinsics below, and an exported function of
another form."""
import math
import pathlib
import re
import sys

LAYOUT = 'target datalayout = "e-m:e-p270:32:32-p271:32:32-p272:64:64-i64:64-i128:128-f80:128-n8:16:32:64-S128"'
TRIPLE = 'target triple = "x86_64-unknown-linux-gnu"'
ATTRIBUTES = 'attributes #0 = { nounwind "probe-stack"="inline-asm" "stack-probe-size"="3072" "target-cpu"="x86-64" }'
ATTRIBUTES_THERE = "attributes #0 = { nounwind null_pointer_is_valid }"
STEPS = set("add alloca and ashr br call extractvalue getelementptr icmp insertvalue load lshr mul or ret select sext shl store sub "
            "switch trunc udiv unreachable urem xor zext".split())
INTRINSICS = {"llvm.memmove.p0.p0.i64", "llvm.memcpy.p0.p0.i64", "llvm.memset.p0.i64", "llvm.trap"}
WIDTHS = {"i1": 1, "i8": 1, "i16": 2, "i32": 4, "i64": 8, "ptr": 8}
STEP = re.compile(r"^  (?:%\S+ = )?(?:tail |musttail |notail )?(\w+)(.*)$")
EXPORT = re.compile(r"^define noundef (i32|i64) @(\w+)\((.*)\) #0 \{$")
PLACE = re.compile(r"^  (%\w+) = getelementptr (?:inbounds nuw )?i8, ptr (%\w+), i64 (\d+)$")
# Both processors have the least byte of a number first, so the same bytes are the same numbers there.
BYTES = re.compile(r'^@static\.\d+ = private unnamed_addr constant \[\d+ x i8\] (?:c"[^"]*"|zeroinitializer), align \d+$')
# An area at the address 0 is put elsewhere, for a reader of x86-64 code that takes no slice to begin there.
ELSEWHERE = re.compile(r"""^  (%\w+) = icmp eq ptr (%a\d+), null
  (%\w+) = zext i1 \1 to i64
  (%\w+) = mul i64 \3, 4096
  (%\w+) = getelementptr i8, ptr \2, i64 \4$""", re.M)
PAIR = re.compile(r"^  (%\w+) = load \{ (\w+), (\w+) \}, ptr (%\w+), align (\d+)$")
ACCESS = re.compile(r"^  (?:%\w+ = load (\w+), ptr (%\w+),|store (\w+) \S+, ptr (%\w+),)")


def refuse(why, line):
    raise SystemExit(f"retarget: {why}: {line}")


def check_step(line):
    name, words = STEP.match(line).groups()
    words = re.sub(r'"[^"]*"', "", words)
    if name not in STEPS or re.search(r"\b(volatile|atomic|asm|addrspace|i128|float|double)\b|<", words):
        refuse("an instruction that is not known to mean the same", line)
    if name == "icmp" and re.match(r" \w+ ptr\b", words):
        refuse("pointers are compared", line)
    if name in ("load", "store") and ", align " not in words:
        refuse("no alignment", line)
    if name in ("load", "store") and words.startswith(" {"):
        refuse("several values are read or stored as one", line)


def check_line(line):
    if line.startswith("  ") and not line.startswith("    ") and line != "  ]":
        check_step(line)
    if line.startswith("@") and not BYTES.match(line):
        refuse("a global", line)
    if line.startswith("declare") and re.search(r"@([\w.]+)\(", line)[1] not in INTRINSICS:
        refuse("a call to the outside", line)


def overlaps(pointer, access):
    offset, kind = access
    return kind != "ptr" and offset < pointer + WIDTHS["ptr"] and pointer < offset + WIDTHS[kind]


def check_pointers(head, body):
    """Where a function keeps a pointer it keeps nothing else, so that it does not matter how many bytes one has."""
    places, kept = {}, {}
    for line in body:
        if place := PLACE.match(line):
            base, offset = places.get(place[2], (place[2], 0))
            places[place[1]] = base, offset + int(place[3])
        if access := ACCESS.match(line):
            base, offset = places.get(access[2] or access[4], (access[2] or access[4], 0))
            kept.setdefault(base, set()).add((offset, access[1] or access[3]))
    for accesses in kept.values():
        for pointer in (offset for offset, kind in accesses if kind == "ptr"):
            if any(overlaps(pointer, access) for access in accesses):
                refuse("a pointer is read or stored as a number", head)


def apart(line):
    """The lines that read a pair in its two parts, for one that reads it whole."""
    found = PAIR.match(line)
    if not found:
        return [line]
    pair, first, second, place, aligned = found.groups()
    offset = max(WIDTHS[first], WIDTHS[second])
    return [f"  {pair}_first = load {first}, ptr {place}, align {aligned}",
            f"  {pair}_place = getelementptr i8, ptr {place}, i64 {offset}",
            f"  {pair}_second = load {second}, ptr {pair}_place, align {math.gcd(int(aligned), offset)}",
            f"  {pair}_half = insertvalue {{ {first}, {second} }} poison, {first} {pair}_first, 0",
            f"  {pair} = insertvalue {{ {first}, {second} }} {pair}_half, {second} {pair}_second, 1"]


def check_size(name, variable, body):
    """A size comes in to be stored as the length of a slice, and for nothing else."""
    uses = [line for line in body if re.search(re.escape(variable) + r"\b", line)]
    stored = re.fullmatch(rf"  store i64 {re.escape(variable)}, ptr (%\w+), align 8", uses[0] if len(uses) == 1 else "")
    if not stored or not any(re.fullmatch(rf"  {stored[1]} = getelementptr i8, ptr %\w+, i64 8", line) for line in body):
        refuse(f"{variable} is not just the length of a slice", name)


def where_it_lies(body):
    """The lines of an exported function, each area where it lies, at the address 0 too. What it counted for that, nothing else may read."""
    text = "\n".join(body)
    for found in ELSEWHERE.finditer(text):
        for made in (found[1], found[3], found[4]):
            if len(re.findall(re.escape(made) + r"\b", text)) != 2:
                refuse("a null pointer is counted for more than a place", found[0].split("\n")[0])
    return ELSEWHERE.sub(r"  \5 = getelementptr i8, ptr \2, i64 0", text).split("\n")


def widened(head, body):
    """An exported function that takes its sizes in 32 bits."""
    result, name, parameters = EXPORT.match(head).groups()
    words, steps, before = [], [], ""
    for parameter in parameters.split(", "):
        kind, _, variable = parameter.split(" ")
        if kind == "i64" and before == "ptr":
            check_size(name, variable, body)
            words.append(f"i32 noundef %size{variable[2:]}")
            steps.append(f"  {variable} = zext i32 %size{variable[2:]} to i64")
        elif kind in ("ptr", "i32"):
            words.append(parameter)
        else:
            refuse("a parameter of another form", head)
        before = kind
    return [f"define noundef {result} @{name}({', '.join(words)}) #0 {{", body[0], *steps, *body[1:]]


def retargeted(lines):
    for wanted in (LAYOUT, TRIPLE, ATTRIBUTES):
        if wanted not in lines:
            refuse("the module has not", wanted)
    at = 0
    while at < len(lines):
        line = lines[at]
        check_line(line)
        if line.startswith("define "):
            end = lines.index("}", at)
            body = [step for whole in lines[at + 1:end] for step in apart(whole)]
            body = body if line.startswith("define internal ") else where_it_lies(body)
            for inner in body:
                check_line(inner)
            check_pointers(line, body)
            if not line.startswith("define internal ") and not EXPORT.match(line):
                refuse("an exported function of another form", line)
            yield from [line, *body] if line.startswith("define internal ") else widened(line, body)
            at = end
            line = "}"
        if line not in (LAYOUT, TRIPLE):
            yield ATTRIBUTES_THERE if line == ATTRIBUTES else line
        at += 1


def main():
    if len(sys.argv) != 3:
        raise SystemExit(__doc__)
    lines = pathlib.Path(sys.argv[1]).read_text().splitlines()
    pathlib.Path(sys.argv[2]).write_text("\n".join(retargeted(lines)) + "\n")


if __name__ == "__main__":
    main()
