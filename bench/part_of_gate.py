"""What the gate costs for some crates and all that they stand on: `rt ci` over a copy of the repository that has these alone.

    python3 -B bench/part_of_gate.py show_settings
"""
import pathlib
import re
import shutil
import subprocess
import sys
import tempfile
import time

sys.path.append("tools")
from wrong_programs import files_of, programs_of


def listed(text):
    """Each crate's line of crates.txt, and the crates that it names."""
    return {line.split(":")[0].split()[0]: (line, line.split(":")[1].split()) for line in text.splitlines() if re.match(r"\w+( staticlib)?:", line)}


def stood_on(names, crates):
    """These crates and all that they stand on; a library of the toolchain is in no list."""
    wanted, left = set(), list(names)
    while left:
        name = left.pop()
        if name in crates and name not in wanted:
            wanted.add(name)
            left += crates[name][1]
    return wanted


def main():
    crates = listed(pathlib.Path("crates.txt").read_text())
    unknown = [name for name in sys.argv[1:] if name not in crates]
    if unknown or not sys.argv[1:]:
        print(f"no crate of crates.txt: {' '.join(unknown) or '(none named)'}")
        return 2
    wanted = stood_on(sys.argv[1:], crates)
    with tempfile.TemporaryDirectory() as place:
        for name in wanted:
            shutil.copytree(f"crates/{name}", f"{place}/crates/{name}", ignore=shutil.ignore_patterns("out"))
        lines = [line for name, (line, _) in crates.items() if name in wanted]
        pathlib.Path(place, "crates.txt").write_text("\n".join(lines) + "\n")
        began = time.time()
        status = subprocess.run(["rt", "ci"], cwd=place).returncode
        took = round(time.time() - began)
    programs, files = (sum(len(of(name)) for name in wanted) for of in (programs_of, files_of))
    print(f"{len(wanted)} crates, {programs} wrong programs in {files} files, {took // 60} min {took % 60} s")
    return status


if __name__ == "__main__":
    sys.exit(main())
