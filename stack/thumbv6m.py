"""Reads frames and calls off what clang writes for a thumbv6m core: the code as text, FILE.s, and the frame of each function as the
compiler tells it, FILE.su. The return address is part of the frame of the function that stores it.

A frame must be what the function's push and sub take. Refused: another frame, a call by a pointer, and a jump by a pointer that was
not read out of a jump table."""
import pathlib
import re

from ways import Function, Refused

RETURN_ADDRESS = 0
HEAD = re.compile(r'^"?([^".][^"]*?)"?:(\s|$)')
EXPORTED = re.compile(r"^\t\.globl\t(\S+)")
CALL = re.compile(r'^\tbl?\t"?([^".\s][^"\s]*)"?(\s|$)')
PUSH = re.compile(r"^\tpush\t\{(.*)\}")
SUB = re.compile(r"^\tsub\tsp, #(\d+)")
BY_POINTER = re.compile(r"^\t(blx\t.*|bx\t(?!lr\b).*)")
JUMP = re.compile(r"^\t(mov|add)\tpc, (r\d+)")
LABEL = re.compile(r"^[^\t\s@].*:")
MAKES = re.compile(r"^\t(?!str|cmp)\w+\t(r\d+), (.*?)\s*(?:@.*)?$")
ENTRY = re.compile(r"^\[(r\d+), r\d+\]$")
TABLE = re.compile(r"^\.LJTI\w+")
BESIDE_CODE = re.compile(r"^@|^\t\.p2align")
FRAME = re.compile(r"^[^\t]*?:(?:\d+:)*([^\t]+)\t(\d+)\t(\S+)$")


def read_frames(path):
    frames = {}
    for line in pathlib.Path(path).read_text().splitlines():
        name, size, kind = FRAME.match(line).groups()
        if kind != "static":
            raise Refused(f"{name}: its frame has no fixed size")
        frames[name] = int(size)
    return frames


def maker(register, before):
    """What a register was made of, and the lines before that; nothing where a label stands between."""
    for number in range(len(before) - 1, -1, -1):
        if LABEL.match(before[number]):
            break
        made = MAKES.match(before[number])
        if made and made[1] == register:
            return made[2], before[:number]
    return "", []


def is_table_jump(kind, register, before, following):
    """Whether a jump goes where a table says: one that follows the jump, or one whose entry the register was loaded with; where it is added
    to the place of the jump, twice the entry."""
    if kind == "add":
        if TABLE.match(next(line for line in following if not BESIDE_CODE.match(line))):
            return True
        before = before[:-1] if before and before[-1].startswith(".LCPI") else before
        doubled, earlier = maker(register, before)
        if doubled != f"{register}, #1" or not before[len(earlier)].startswith("\tlsls\t"):
            return False
        before = earlier
    made, earlier = maker(register, before)
    entry = ENTRY.match(made)
    return bool(entry and TABLE.match(maker(entry[1], earlier)[0]))


def read_step(function, line, before, following):
    """Adds what one line of a function says."""
    if pushed := PUSH.match(line):
        function.most += 4 * len(pushed[1].split(","))
    elif taken := SUB.match(line):
        function.most += int(taken[1])
    elif pointer := BY_POINTER.match(line):
        raise Refused(f"{function.name}: a call by a pointer: {pointer[1]}")
    elif (jump := JUMP.match(line)) and not is_table_jump(*jump.groups(), before, following):
        raise Refused(f"{function.name}: a jump by a pointer: {line.strip()}")
    elif callee := CALL.match(line):
        function.calls.append(callee[1])


def read(path):
    """The functions of one file of code."""
    frames = read_frames(re.sub(r"\.s$", ".su", path))
    functions, exported, function = {}, set(), None
    lines = pathlib.Path(path).read_text().splitlines()
    for number, line in enumerate(lines):
        if name := EXPORTED.match(line):
            exported.add(name[1])
        elif (head := HEAD.match(line)) and head[1] in frames:
            function = functions[head[1]] = Function(head[1], head[1] in exported)
        elif function:
            read_step(function, line, lines[:number], lines[number + 1:])
    for name, size in frames.items():
        if name not in functions or functions[name].most != size:
            raise Refused(f"{name}: its frame has no fixed size, or none that the code shows")
        functions[name].calls = [(size, callee) for callee in functions[name].calls]
    return functions
