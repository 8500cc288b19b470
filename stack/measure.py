"""Prints the most stack that each exported function of some code takes, and the deepest way down; what it calls outside of that
code comes on top.

    python3 -B stack/measure.py FILE..

A FILE is an archive or an object of x86-64 code, or code for a thumbv6m core (FILE.s, with FILE.su beside it). Ends with status 1
where no number can be told: recursion, a call by a pointer, a frame without a fixed size."""
import pathlib
import subprocess
import sys
import tempfile

import thumbv6m
import x86_64
from ways import Refused, Ways


def objects_of(path, place):
    """The objects of an archive, laid down in a folder; of an object, that."""
    if pathlib.Path(path).suffix != ".a":
        return [path]
    subprocess.run(["x86_64-linux-gnu-ar", "x", pathlib.Path(path).resolve()], cwd=place, check=True)
    return sorted(str(member) for member in pathlib.Path(place).iterdir())


def ways_of(path):
    """The ways through each object or file of code: names are an object's own."""
    if path.endswith(".s"):
        return [Ways(thumbv6m.read(path), thumbv6m.RETURN_ADDRESS)]
    with tempfile.TemporaryDirectory() as place:
        return [Ways(x86_64.read(member), x86_64.RETURN_ADDRESS) for member in objects_of(path, place)]


def measure(paths):
    """Of each exported function its bytes and the deepest way; and the names of what is called outside."""
    every = [ways for path in paths for ways in ways_of(path)]
    found = {name: (size, way) for ways in every for name, size, way in ways.exported()}
    return found, set().union(*(ways.outside for ways in every))


def main():
    if len(sys.argv) < 2:
        raise SystemExit(__doc__)
    for path in sys.argv[1:]:
        if not pathlib.Path(path).is_file():
            raise SystemExit(f"stack: there is no {path}; `make stack` makes what it measures")
    try:
        found, outside = measure(sys.argv[1:])
    except Refused as why:
        raise SystemExit(f"stack: {why}")
    for name, (size, way) in sorted(found.items()):
        print(f"{size:6} {' > '.join(way)}")
    print(f"outside: {' '.join(sorted(outside)) or 'nothing'}")


if __name__ == "__main__":
    main()
