"""Writes what was measured into docs/BENCH.md.

    python3 -B stack/table.py ARCHIVE CODE.s.."""
import pathlib
import sys

sys.path.append(str(pathlib.Path(__file__).parent.parent / "bench"))
import blocks  # noqa: E402
from measure import measure  # noqa: E402


def main():
    (wide, outside_wide), (small, outside_small) = measure(sys.argv[1:2]), measure(sys.argv[2:])
    rows = [[f"`{name}`", str(wide[name][0]), str(small[name][0]), ", ".join(f"`{part}`" for part in wide[name][1][1:])]
            for name in sorted(wide, key=lambda name: -wide[name][0])]
    heads = ["function", "x86-64, bytes", "thumbv6m, bytes", "deepest way down, x86-64"]
    outside = [", ".join(f"`{name}`" for name in sorted(names)) for names in (outside_wide, outside_small)]
    text = f"On top come the frames of {outside[0]} on x86-64, and of {outside[1]} on thumbv6m."
    blocks.replace("stack", blocks.table(heads, rows) + "\n\n" + text)


if __name__ == "__main__":
    main()
