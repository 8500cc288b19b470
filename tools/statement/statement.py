"""Writes the statement for signing: target/statement/STATEMENT.pdf, or STATEMENT.html alone where no PDF can be made.

Fills in what page 1 says was checked: the commit, the toolchain, the last line of the gate, and the sha256 of the library. The gate's
line is that of target/gate.txt, which .ci/run writes, and only where it was written for these very files. Where something is not
as a signer wants it, the page says so, and so does the status: 1. It is 2 where nothing could be written.

To be run in the repository's root: python3 -B tools/statement/statement.py"""
import hashlib
import html
import pathlib
import re
import shutil
import subprocess
import sys

SOURCE = pathlib.Path("docs/STATEMENT.md")
STYLE = pathlib.Path("tools/statement/statement.css")
PLACE = pathlib.Path("target/statement")
GATE = pathlib.Path("target/gate.txt")
LIBRARY = pathlib.Path("target/staticlib/libbhorelmu.a")
NOT_RUN = "not run on this commit"

# Page 1 ends where the first annex begins. Debian's weasyprint stands with Debian's own python3.
PRINT = """
import sys, weasyprint
pages = weasyprint.HTML(sys.argv[1]).render()
pages.write_pdf(sys.argv[2])
annexes = [mark[1][0] for mark in pages.make_bookmark_tree()[0][2]]
sys.exit(0 if annexes[0] == 1 else 3)
"""


def output_of(*command):
    """What a command writes, or nothing where it cannot be run or fails."""
    try:
        return subprocess.run(command, check=True, capture_output=True, text=True).stdout.strip()
    except (OSError, subprocess.CalledProcessError):
        return ""


def have(tool, package):
    """Whether a tool is there; where it is not, its package of Debian is tried."""
    if shutil.which(tool) is None and shutil.which("apt-get"):
        print(f"installing {package}", flush=True)
        output_of("apt-get", "update")
        output_of("apt-get", "install", "-y", "--no-install-recommends", *package.split())
    return shutil.which(tool) is not None


def commit():
    """The commit, whether the files are its own, and what is wrong."""
    name = output_of("git", "rev-parse", "HEAD")
    if not name:
        return "unknown", "no commit is known here"
    if output_of("git", "status", "--porcelain"):
        return f"{name}, with uncommitted changes", "the files are not those of the commit"
    return name, ""


def noted():
    """What the gate noted, where it was for these very files: its words by their names."""
    if not GATE.exists():
        return {}
    words = dict(line.split(" ", 1) for line in GATE.read_text().splitlines())
    return words if words.get("files") and words["files"] == output_of("tools/statement/files_sum.sh") else {}


def gate(note):
    """The last line of the gate, and what is wrong."""
    last = note.get("last", NOT_RUN)
    if re.fullmatch(r"[1-9]\d* passed, 0 failed", last):
        return last, ""
    return last, f"the gate: {last}"


def library(note):
    """The sha256 of the library, which is built where it is not that of the crates, and what is wrong."""
    subprocess.run(["make", "-s", "lib"], check=False)
    if not LIBRARY.exists():
        return "not built", "the library could not be built"
    sum256 = hashlib.sha256(LIBRARY.read_bytes()).hexdigest()
    if note and note.get("library") != sum256:
        return f"{sum256}, not the one that the gate has tested", "the library is not the one that the gate has tested"
    return sum256, ""


def toolchain(note):
    """The toolchain's id, and what is wrong."""
    name = output_of("rt", "version")
    if note and note.get("toolchain") != name:
        return f"{name}, not the one of the gate", "the toolchain is not the one of the gate"
    return name or "unknown", "" if name else "no toolchain is known here"


def page_of(text):
    """The HTML of the Markdown."""
    body = subprocess.run(["cmark-gfm", "--unsafe", "-e", "table"], input=text, check=True, capture_output=True, text=True).stdout
    for headed, name in [("checked at", "checked"), ("place and date", "signed")]:
        body = re.sub(rf"<table>(\s*<thead>\s*<tr>\s*<th>{headed}</th>)", rf'<table class="{name}">\1', body)
    body = re.sub(r"<table>(\s*<thead>\s*<tr>\s*<th>no\.</th>\s*<th>assumption</th>)", r'<table class="assumed">\1', body)
    body = re.sub(r"<table>(\s*<thead>\s*<tr>\s*<th>no\.</th>\s*<th>the guide)", r'<table class="departures">\1', body)
    first, annexes = body.split("<h2>", 1)
    title = re.search(r"<h1>(.*?)</h1>", first).group(1)
    return (f'<!DOCTYPE html>\n<html lang="en">\n<head>\n<meta charset="utf-8">\n<title>{title}</title>\n<style>\n{STYLE.read_text()}</style>\n'
            f'</head>\n<body>\n<section class="page1">\n{first}</section>\n<h2>{annexes}</body>\n</html>\n')


def main():
    if len(sys.argv) > 1:
        print(__doc__)
        return 0 if sys.argv[1] in ("-h", "--help") else 2
    note = noted()
    found = {"commit": commit(), "toolchain": toolchain(note), "gate": gate(note), "library": library(note)}
    text = SOURCE.read_text()
    for name, (words, _) in found.items():
        if text.count(f"{{{name}}}") != 1:
            print(f"{SOURCE}: {{{name}}} must stand there once")
            return 2
        text = text.replace(f"{{{name}}}", words)
    if not have("cmark-gfm", "cmark-gfm"):
        print("cmark-gfm is not there, and cannot be had: nothing is written")
        return 2
    PLACE.mkdir(parents=True, exist_ok=True)
    page, paper = PLACE / "STATEMENT.html", PLACE / "STATEMENT.pdf"
    paper.unlink(missing_ok=True)
    page.write_text(page_of(text).replace("<h1>", f'<h1 data-commit="{html.escape("commit " + found["commit"][0])}">'))
    wrong = [what for _, what in found.values() if what]
    if have("weasyprint", "weasyprint fonts-liberation2"):
        status = subprocess.run(["/usr/bin/python3", "-c", PRINT, str(page), str(paper)], check=False).returncode
        wrong += ["page 1 takes more than a page"] if status == 3 else ["no PDF could be made"] if status else []
    else:
        print("weasyprint is not there, and cannot be had: the statement is HTML alone")
    print(paper if paper.exists() else page)
    for what in wrong:
        print(f"NOT FOR SIGNING: {what}")
    return 1 if wrong else 0


if __name__ == "__main__":
    sys.exit(main())
