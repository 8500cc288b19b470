"""What bench/count.py has counted, as it stands below target/bench/."""
import pathlib
import sys

WORK = pathlib.Path("target/bench")


def title_of(name, detail):
    return f"{name}, {detail}" if detail else name


def read_calls(lines):
    """The instructions of each side, by a call's title."""
    found = {}
    for line in lines:
        side, name, detail, steps = line.rstrip("\n").split("\t")
        found.setdefault(title_of(name, detail), {})[side] = int(steps)
    return found


def of_calls():
    return read_calls((WORK / "calls.counts").read_text().splitlines())


def of_places():
    """The instructions of an Unlock that is wrong in one byte, by side: those of each place, in their order."""
    found = {}
    for line in (WORK / "places.counts").read_text().splitlines():
        side, _, steps = line.split("\t")
        found.setdefault(side, []).append(int(steps))
    return found


def of_checksums():
    """The instructions of each way, by the number of bytes."""
    found = {}
    for line in (WORK / "checksums.counts").read_text().splitlines():
        way, size, steps = line.split("\t")
        found.setdefault(int(size), {})[way] = int(steps)
    return found


def main():
    """Prints what comes on the standard input, with the sides of a call in one line."""
    print(f"{'call':50} {'ours':>8} {'gcc':>8} {'clang':>8} {'/ gcc':>6} {'/ clang':>7}")
    for title, of in read_calls(sys.stdin).items():
        ratios = f"{of['ours'] / of['gcc']:6.2f} {of['ours'] / of['clang']:7.2f}"
        print(f"{title:50} {of['ours']:8} {of['gcc']:8} {of['clang']:8} {ratios}")


if __name__ == "__main__":
    main()
