"""How dear each call may be: instructions, ours over those of the model by the toolchain's own clang, to the hundredth. Both are made
by one compiler, so that no other moves the numbers.

    python3 -B bench/limits.py      writes bench/limits.txt anew, of what `make bench` has counted last
"""
import math
import pathlib

import counted

LIMITS = pathlib.Path("bench/limits.txt")
MARGIN = 1.02  # what another linker or libc may add, by where it puts things
HEAD = """# Instructions of each call, ours over the model's by clang. `make bench` fails where one goes 2 in 100 above its number.
# Who raises one says why; `python3 -B bench/limits.py` writes them anew, of the last `make bench`.
"""


def up_to_hundredth(ratio):
    return math.ceil(ratio * 100) / 100


def read():
    lines = [line.split(" ", 1) for line in LIMITS.read_text().splitlines() if not line.startswith("#")]
    return {title: float(limit) for limit, title in lines}


def faults(ratios):
    """What is dearer than it may be. `ratios` has that of each call's title."""
    limits = read()
    for title in sorted(set(limits) ^ set(ratios)):
        yield f"{title}: not both measured and in {LIMITS}"
    for title, ratio in ratios.items():
        if title in limits and ratio > limits[title] * MARGIN:
            yield (f"{title}: {ratio:.3f} times the model's by clang, and {LIMITS} allows {limits[title]:.2f}: mend it, or raise it "
                   "and say why")


if __name__ == "__main__":
    found = counted.of_calls()
    LIMITS.write_text(HEAD + "".join(f"{up_to_hundredth(of['ours'] / of['clang']):.2f} {title}\n" for title, of in found.items()))
