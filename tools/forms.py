#!/usr/bin/env python3
"""Counts, in the sources and the proofs of the crates, the places where an older form may stand: for docs/DESIGN-PASS.md.

    tools/forms.py [--list] [--commit COMMIT] [POINT..]

prints of each point, 1 to 8 or those that are given, how many places there are of each kind. With --list it prints each of them, by file
and line. Without --commit it looks at the files as they stand. What is counted is a place to look at, not a fault.

1  enums, flags with a value beside them, 0 where none is meant, constants of refusals
2  pairs of functions whose words are alike but for names, numbers and constants (85 in 100)
3  loops by `while` and `loop`, and by `for` over a range
4  types that derive nothing but Clone and Copy, conversions by hand, casts with `as`, structs copied field by field
5  parameters that travel together, and facts that three or more `requires` repeat
6  buffers of zeros that are filled afterwards
7  functions that differ in which step they run
8  files of answers by hand and of invariants, and lines of proofs

Status 0, or 2 for wrong use. To be run in the repository's root."""
import collections
import difflib
import itertools
import re
import sys

sys.dont_write_bytecode = True
from moved import Misuse, files_at, files_here
from wrong_programs import functions_of_text

ALIKE, FEWEST_WORDS = 0.85, 22
SOURCE = re.compile(r"crates/\w+/src/.*\.rt")
HEAD = re.compile(r"\bfn (\w+)(?:<[^>]*>)?\((.*?)\)\s*(?:->|\n|requires|ensures|\{)", re.S)
REQUIRES = re.compile(r"^ *requires \{ (.*) \}", re.M)
CONVERSIONS = """least room byte_at part_of put fill put_number number16_at number32_at pair_at word_at long_at bytes_of is_multiple
    all_digits put_decimal digits_in digit_of text_of put_hex is_one_of password_in reset_password_in protection_in last_body name_in
    six_in front_of sum_of number_of form_number form_numbered is_form_number phase_in phase_code lock_code sleep_of of_refusal of_start
    of_read of_write of_large_write of_move of_examined narrowed kept moved_to connected ended with_rate stirred judged_wrong digit_at
    digit_value byte_value place_of""".split()
TOGETHER = {
    "main, settings, window": (r"\bmain:", r"\b(?:image|settings):", r"\bwindow:"),
    "sector_size, protection": (r"\bsector_size:", r"\bprotection:"),
    "main_size, protection, settings_protected": (r"\bmain_size:", r"\bprotection:", r"\bsettings_protected:"),
    "region, offset": (r"\bregion: Region", r"\boffset:"),
    "part": (r"\bpart: Part",),
    "last_rate": (r"\blast_rate: u8",),
    "names, row": (r"\bnames: &", r"\brow: u8"),
}
LINES = {
    1: {
        "enums": r"^ *(?:pub(?:\(crate\))? )?enum ",
        "answers, flags and numbers beside a value": r"^ +pub (?:answer|heard|burn|is_protected|long_version):",
        "comments of a 0 that stands for none": r"the answer is 0|or 0 where|0 where",
        "constants of refusals": r"= (?:[0-9]+ \* )?REFUSAL_UNIT;|(?:REFUSAL|BURN)_UNIT: u64",
    },
    3: {"loops by `while` and `loop`": r"^ *while |loop \{", "`for` over a range": r"for \w+ in [\w(]*\.\."},
    4: {
        "types that derive Clone and Copy alone": r"^#\[derive\(Clone, Copy\)\]",
        "conversions by hand, by their names": rf"\bfn (?:{'|'.join(CONVERSIONS)})\b",
        "casts with `as`": r"^(?! *//).*\bas (?:u8|u16|u32|u64|usize)\b",
        "standings built field by field": r"^ *(?:let \w+ = )?(?:return )?Standing \{",
    },
    6: {"buffers of zeros": r"let mut \w+ = \[0(?:u8)?; "},
    7: {"functions that differ in a step": r"fn (?:show|move)_to_form_"},
}


def at_line(file, text, start):
    return f"{file}:{text.count(chr(10), 0, start) + 1}"


def lines_like(sources, pattern):
    """The lines that match, each by its place and what it says."""
    return [f"{file}:{number}: {line.strip()}" for file, text in sources.items()
            for number, line in enumerate(text.splitlines(), 1) if re.search(pattern, line)]


def words_of(function):
    """The words of a function, without its contract; numbers and constants are all the same word."""
    body = "\n".join(line for line in function.splitlines() if not re.match(r"\s*(?:ensures|requires)", line))
    for pattern, word in ((r"\b[A-Z][A-Z_0-9]{2,}\b", "CONST"), (r'b"[^"]*"', "STR"), (r"0x[0-9A-Fa-f_]+|\b\d+\b", "N"), (r"fn \w+", "fn F")):
        body = re.sub(pattern, word, body)
    return re.findall(r"\w+|[^\w\s]", body)


def functions_in(sources):
    """The place, name and words of each function that is long enough to be compared."""
    for file, text in sources.items():
        for found in functions_of_text(text):
            words = words_of(found.text)
            if FEWEST_WORDS <= len(words):
                yield f"{at_line(file, text, found.begin)} {found.name}", words


def alike(sources):
    pairs = itertools.combinations(functions_in(sources), 2)
    ratios = ((difflib.SequenceMatcher(None, one[1], other[1]).ratio(), one[0], other[0]) for one, other in pairs
              if 2 * min(len(one[1]), len(other[1])) >= ALIKE * (len(one[1]) + len(other[1])))
    return [f"{ratio:.2f} {one} ~ {other}" for ratio, one, other in sorted(ratios, reverse=True) if ALIKE <= ratio]


def together(sources, patterns):
    """The functions whose parameters have all of these."""
    return [f"{at_line(file, text, found.start())} {found[1]}" for file, text in sources.items() for found in HEAD.finditer(text)
            if all(re.search(pattern, found[2]) for pattern in patterns)]


def repeated_facts(sources):
    """The facts of three or more `requires`, whatever the parameter is called, each with its places."""
    facts = collections.defaultdict(list)
    for file, text in sources.items():
        for found in REQUIRES.finditer(text):
            for fact in found[1].split(" × "):
                facts[re.sub(r"\b[a-z_]+\.(now|old)", r"X.\1", fact.strip("() "))].append(at_line(file, text, found.start()))
    return [f"{place}: {fact}" for fact, places in facts.items() if 3 <= len(places) for place in places]


def proofs_of(proofs):
    """The files and lines of the proofs, and of the answers and invariants among them."""
    kinds = {"files of answers": "/Answers.antt", "files of invariants": "/Invariants.antt", "files of proofs": ".antt"}
    kinds = {kind: [file for file in proofs if file.endswith(end)] for kind, end in kinds.items()}
    return {**kinds, "lines of proofs": [file for file, text in proofs.items() for _ in text.splitlines()]}


def counted(point, texts):
    """What is counted of a point: the places of each kind."""
    sources = {file: text for file, text in texts.items() if SOURCE.fullmatch(file)}
    if point == 2:
        print("forms.py: comparing the functions two by two takes some 15 seconds", file=sys.stderr)
        return {"pairs of functions that are alike": alike(sources)}
    if point == 5:
        groups = {f"functions with {name}": together(sources, patterns) for name, patterns in TOGETHER.items()}
        return {**groups, "places of facts that three or more `requires` repeat": repeated_facts(sources)}
    if point == 8:
        return proofs_of({file: text for file, text in texts.items() if "/proofs/" in file and file.endswith(".antt")})
    return {kind: lines_like(sources, pattern) for kind, pattern in LINES[point].items()}


def main(arguments):
    if arguments and arguments[0] in ("-h", "--help"):
        print(__doc__)
        return 0
    listed = "--list" in arguments
    rest = [argument for argument in arguments if argument != "--list"]
    commit = None
    if rest[:1] == ["--commit"]:
        if len(rest) < 2:
            raise Misuse("--commit wants a commit")
        commit, rest = rest[1], rest[2:]
    wrong = [argument for argument in rest if argument not in "12345678" or len(argument) != 1]
    if wrong:
        raise Misuse(f"'{wrong[0]}' is no point: they are 1 to 8")
    texts = files_at(commit) if commit else files_here()
    for point in map(int, rest or "12345678"):
        for kind, places in counted(point, texts).items():
            print(f"{point}  {len(places):5}  {kind}", flush=True)
            for place in places if listed else ():
                print(f"           {place}")
    return 0


if __name__ == "__main__":
    try:
        sys.exit(main(sys.argv[1:]))
    except Misuse as why:
        print(f"forms.py: {why}", file=sys.stderr)
        sys.exit(2)
