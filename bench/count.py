"""Counts the instructions of single calls by the emulator of an x86-64 processor, which is the same on every machine.

    python3 -B bench/count.py PROGRAM [WHAT]

runs `PROGRAM WHAT`, or `PROGRAM count`, which prints a title for each call and has a mark before and after it. The emulator takes one step at a time
and tells the address of each. Prints each title and how many steps there were between its two marks, outside of the program's own
code. A string instruction (rep stos) is one step for each of its turns."""
import pathlib
import re
import shutil
import subprocess
import sys
import tempfile

BINUTILS = "x86_64-linux-gnu-"
EMULATOR = "qemu-x86_64"
SECTION = re.compile(r"\] (\S+) +PROGBITS +([0-9a-f]+) [0-9a-f]+ ([0-9a-f]+) \S+ +AX ")


def said(*words):
    return subprocess.run([BINUTILS + words[0], *words[1:]], check=True, capture_output=True, text=True).stdout


def place_of_mark(program):
    return next(int(line.split()[0], 16) for line in said("nm", program).splitlines() if line.endswith(" T mark"))


def measured_places(program):
    """Where the code lies that is not the measuring program's: first address and size of each section."""
    sections = SECTION.findall(said("readelf", "-SW", program))
    return [f"0x{start}+0x{size}" for name, start, size in sections if name != ".measuring"]


def steps_between(log, mark):
    """The steps of each call: the log has a line for each step, [cs_base/address/..]."""
    wanted, counts, steps, is_inside = b"/%016x/" % mark, [], 0, False
    for line in log:
        if wanted in line:
            if is_inside:
                counts.append(steps)
            is_inside, steps = not is_inside, 0
        elif line.startswith(b"Trace "):
            steps += 1
    return counts


def emulation(program, what, mark):
    """How the program is run. Later emulators name the single step otherwise."""
    known = subprocess.run([EMULATOR, "-h"], capture_output=True, text=True).stdout
    step = "-one-insn-per-tb" if "-one-insn-per-tb" in known else "-singlestep"
    places = ",".join(measured_places(program) + [f"{mark:#x}+1"])
    log = ["-d", "exec,nochain", "-dfilter", places]
    return [shutil.which(EMULATOR), "-cpu", "qemu64", step, *log, f"./{pathlib.Path(program).name}", what]


def count(program, what):
    mark = place_of_mark(program)
    with tempfile.TemporaryFile() as titles:
        # no environment, and a name without a path: where the stack begins depends on nothing of this machine
        run = subprocess.Popen(emulation(program, what, mark), stdout=titles, stderr=subprocess.PIPE, cwd=pathlib.Path(program).parent,
                               env={})
        counts = steps_between(run.stderr, mark)
        titles.seek(0)
        named = titles.read().decode().splitlines()
    if run.wait() != 0 or len(counts) != len(named):
        raise SystemExit(f"count: {program} ended with status {run.returncode} in the emulator, which told the steps of {len(counts)} "
                         f"calls; {len(named)} have titles. The emulator is to be {EMULATOR} of Debian's qemu-user, 7.2 or later")
    return zip(named, counts)


if __name__ == "__main__":
    if len(sys.argv) not in (2, 3):
        raise SystemExit(__doc__)
    for title, steps in count(sys.argv[1], *(sys.argv[2:] or ["count"])):
        print(f"{title}\t{steps}")
