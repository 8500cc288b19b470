"""Reads frames and calls off the machine code of an x86-64 object, as objdump prints it.

Each instruction of a function is reached by every way through it, and all ways must come there with the same number of bytes on
the stack. A return address is 8 bytes, counted with the function that is called. Refused: a call by a pointer or into a function,
a jump by a pointer that is no jump table of the function itself, and any other change of the stack pointer than push, pop, add and
sub of a constant."""
import re
import subprocess

from ways import Function, Refused

OBJDUMP = "x86_64-linux-gnu-objdump"
WORD = RETURN_ADDRESS = 8
HEAD = re.compile(r"^[0-9a-f]+ <(.*)>:$")
STEP = re.compile(r"^ *([0-9a-f]+):\t(?:(?:notrack|bnd|rep|repz|repnz|lock|data16|cs) )*(\w+) *([^#<]*)")
TARGET = re.compile(r"^\t+[0-9a-f]+: (R_X86_64_\w+)\t(.*?)([+-]0x[0-9a-f]+)?$")
TABLES = re.compile(r"^RELOCATION RECORDS FOR \[\.rodata\.(.*)\]:$")
ENTRY = re.compile(r"^([0-9a-f]+) R_X86_64_PC32 +\.text\.(.*)\+(0x[0-9a-f]+)$")
ENDS = {"ud2", "hlt", "int3"}
NOT_STORED = {"cmp", "test", "cmpq", "testq"}


class Step:
    """An instruction; where it names something that the linker places, also that name and the number beside it."""

    def __init__(self, at, name, words):
        self.at, self.name, self.words = at, name, words.strip()
        self.symbol, self.addend = None, 0


def printed(*words):
    return subprocess.run([OBJDUMP, *words], check=True, capture_output=True, text=True).stdout.splitlines()


def read_steps(path):
    """The instructions of each function."""
    functions, steps = {}, []
    for line in printed("-dr", "--no-show-raw-insn", path):
        if head := HEAD.match(line):
            if head[1] in functions:
                raise Refused(f"{path} has two functions named {head[1]}")
            steps = functions[head[1]] = []
        elif target := TARGET.match(line):
            steps[-1].symbol, steps[-1].addend = target[2].removeprefix(".text."), int(target[3] or "0", 16)
        elif step := STEP.match(line):
            steps.append(Step(int(step[1], 16), step[2], step[3]))
    return functions


def read_tables(path):
    """The entries of each function's jump tables: where an entry stands, whose code it names, and the number beside it."""
    tables, entries = {}, []
    for line in printed("-r", path):
        if line.startswith("RELOCATION RECORDS"):
            head = TABLES.match(line)
            entries = tables.setdefault(head[1], []) if head else []
        elif entry := ENTRY.match(line):
            entries.append((int(entry[1], 16), entry[2], int(entry[3], 16)))
    return tables


def read_exported(path):
    said = printed("-t", path)
    return {line.split()[-1] for line in said if re.match(r"^[0-9a-f]+ g +F \.text", line)}


def jump_targets(name, steps, entries):
    """Where the jump tables of a function lead: an entry is counted from the table's first, which the code names."""
    starts = sorted({step.addend + 4 for step in steps if step.symbol == f".rodata.{name}"})
    targets = set()
    for at, owner, number in entries:
        if owner != name or not starts or at < starts[0]:
            raise Refused(f"{name} has a table that is no jump table of its own")
        targets.add(number - (at - max(start for start in starts if start <= at)))
    return targets


def is_table_jump(steps, index):
    """Whether the register that is jumped by was made of an entry and the table's place."""
    register = steps[index].words.removeprefix("*")
    makers = [step for step in steps[max(0, index - 12):index] if step.words.endswith("," + register)][-2:]
    if [step.name for step in makers] != ["movslq", "add"]:
        return False
    return makers[0].words.removeprefix("0x0").startswith(f"({makers[1].words.split(',')[0]},")


def below_pointer(step):
    """How far below the stack pointer an instruction reaches: a function that calls nothing may keep things there."""
    reached = re.search(r"-(0x[0-9a-f]+)\(%rsp", step.words)
    return int(reached[1], 16) if reached else 0


class Reader:
    """Goes every way through one function."""

    def __init__(self, name, steps, entries, is_exported):
        self.name, self.steps = name, steps
        self.function = Function(name, is_exported)
        self.index = {step.at: number for number, step in enumerate(steps)}
        self.targets = jump_targets(name, steps, entries)
        self.taken = {}

    def refuse(self, step, why):
        raise Refused(f"{self.name}: {why}: {step.at:#x} {step.name} {step.words}")

    def read(self):
        left = [(self.steps[0].at, WORD)]
        while left:
            at, taken = left.pop()
            if at not in self.index:
                raise Refused(f"{self.name} goes on at {at:#x}, where it has no instruction")
            if self.taken.setdefault(at, taken) != taken:
                self.refuse(self.steps[self.index[at]], "its frame has no fixed size")
            left += [(to, after) for to, after in self.follow(self.index[at], taken) if self.taken.get(to) != after]
        return self.function

    def follow(self, index, taken):
        """Where an instruction leads, and the bytes that are taken there."""
        step = self.steps[index]
        after = taken + self.change(step)
        self.function.most = max(self.function.most, after, taken + below_pointer(step))
        if step.name in ENDS:
            return []
        if step.name == "ret":
            if taken != WORD:
                self.refuse(step, "it returns with something left on the stack")
            return []
        if step.name == "call":
            self.call(step, taken)
        if step.name.startswith("j"):
            return self.jump(index, taken)
        return [(self.after(index), after)]

    def after(self, index):
        if index + 1 == len(self.steps):
            raise Refused(f"{self.name} runs past its end")
        return self.steps[index + 1].at

    def change(self, step):
        constant = re.fullmatch(r"\$(-?0x[0-9a-f]+),%rsp", step.words)
        if step.name == "push":
            return WORD
        if step.name == "pop" and step.words != "%rsp":
            return -WORD
        if step.name in ("add", "sub") and constant:
            return int(constant[1], 16) * (1 if step.name == "sub" else -1)
        if step.name in ("leave", "enter", "pop") or re.search(r"(^|,)%[er]?sp$", step.words) and step.name not in NOT_STORED:
            self.refuse(step, "its frame has no fixed size")
        return 0

    def call(self, step, taken):
        if step.words.startswith("*"):
            self.refuse(step, "a call by a pointer")
        if step.symbol and (step.symbol.startswith(".") or step.addend != -4):
            self.refuse(step, f"a call into {step.symbol}, at no function's beginning")
        self.function.calls.append((taken, step.symbol or self.name))

    def jump(self, index, taken):
        step = self.steps[index]
        if step.words.startswith("*"):
            if not is_table_jump(self.steps, index) or not self.targets:
                self.refuse(step, "a jump by a pointer")
            return [(target, taken) for target in self.targets]
        ways = [] if step.name == "jmp" else [(self.after(index), taken)]
        if step.symbol:  # what it jumps to returns in its place
            self.call(step, taken - WORD)
            return ways
        return ways + [(int(step.words, 16), taken)]


def read(path):
    """The functions of one object."""
    exported, tables = read_exported(path), read_tables(path)
    return {name: Reader(name, steps, tables.get(name, []), name in exported).read() for name, steps in read_steps(path).items()}
