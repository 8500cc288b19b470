"""The parts of docs/BENCH.md that are written by a program: each between two comments, <!-- NAME --> and <!-- end of NAME -->."""
import pathlib
import re

DOCUMENT = pathlib.Path("docs/BENCH.md")


def table(heads, rows):
    """A Markdown table; its first column is words, the others are figures."""
    lines = ["| " + " | ".join(heads) + " |", "|---|" + "---:|" * (len(heads) - 1)]
    return "\n".join(lines + ["| " + " | ".join(row) + " |" for row in rows])


def replace(name, text):
    before = DOCUMENT.read_text()
    pattern = rf"(<!-- {name} -->\n).*?(<!-- end of {name} -->)"
    after, count = re.subn(pattern, lambda found: f"{found[1]}\n{text}\n\n{found[2]}", before, flags=re.S)
    if count != 1:
        raise SystemExit(f"{DOCUMENT}: there is no place for {name}")
    DOCUMENT.write_text(after)


def section(heading):
    """The text below a heading, up to the next of its kind."""
    found = re.search(rf"^## {heading}\n(.*?)(?=^## |\Z)", DOCUMENT.read_text(), re.M | re.S)
    return found[1] if found else ""
