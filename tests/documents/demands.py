"""Holds every quotation of the demands to the customer's own words, which stand in docs/DEMANDS.md.

- The statement has the insurer's question as a quotation of its own, letter by letter, once.
- Read from top to bottom, the first columns of its tables that are headed "the customer's words" are the demands whole, letter by
  letter and in their order: no sentence is left out, and none stands twice.
- Every text in quotation marks that is said to be a demand's is a literal part of the demands. What a text is said to be of is the
  last source named before it in its paragraph, table row, list item or comment: "demand 3", "the insurer", "01", "004", "T-09" or another. Where none is
  named there, it is the one that the heading above names, or the first comment of a file of the crates; the statement quotes the
  demands. In a quotation ".." stands for words that are left out.
- In docs/DECISIONS.md each decision has a number of its own; the statement names all that are marked for a signer, and none that is not
  there.

White space counts as one space."""
import pathlib
import re
import sys

DEMANDS = pathlib.Path("docs/DEMANDS.md")
STATEMENT = pathlib.Path("docs/STATEMENT.md")
DECISIONS = pathlib.Path("docs/DECISIONS.md")
DOCUMENTS = [path for path in sorted(pathlib.Path("docs").glob("*.md")) if path != DEMANDS] + [pathlib.Path("README.md")]
# the prover leaves copies of definitions in crates/*/out
CODE = sorted(path for part in ("src/**/*.rt", "specs/**/*.antt", "proofs/**/*.antt") for path in pathlib.Path("crates").glob(f"*/{part}"))

QUOTED = re.compile(r"^(?:\d\. )?> (.*)$", re.M)
HEADED = "the customer's words"
QUOTATION = re.compile(r'"([^"]+)"')
DEMAND = r"[Dd]emands?\b|[Ii]nsurer\b|[Cc]ustomer's words\b"
SOURCE = re.compile(rf"\b(?:{DEMAND}|T-\d\d\b|(?:[Dd]ocument )?(?:01|004|000)\b(?! [0-9A-F]{{2}}\b))")
MARKED = re.compile(r"^\| (D\d+)( \(S\))? \|", re.M)


def folded(text):
    return " ".join(text.split())


def customers_words():
    """The question, and after it each text that the customer's page quotes."""
    question, *demands = [folded(text) for text in QUOTED.findall(DEMANDS.read_text())]
    return question, demands


def rows(text):
    """The cells of each row of each table, and a row of None where a table ends."""
    for line in text.splitlines():
        yield [cell.strip() for cell in line.strip().strip("|").split("|")] if line.startswith("|") else None


def first_columns(text):
    """The first columns of the tables that are headed as the customer's words."""
    cells, inside = [], False
    for row in rows(text):
        if row is None:
            inside = False
        elif row[0] == HEADED:
            inside = True
        elif inside and not re.fullmatch(r":?-+:?", row[0]):
            cells.append(row[0])
    return cells


def first_difference(one, other):
    """The words around the first letter in which two texts differ."""
    place = next((k for k, (a, b) in enumerate(zip(one, other)) if a != b), min(len(one), len(other)))
    return f"'{one[max(0, place - 20):place + 20]}' where the customer wrote '{other[max(0, place - 20):place + 20]}'"


def faults_of_statement():
    """What is wrong with the question and the demands as the statement has them."""
    question, demands = customers_words()
    text = STATEMENT.read_text()
    quoted = [folded(found) for found in QUOTED.findall(text)]
    if quoted != [question]:
        yield f"{STATEMENT}: its quotations are not the insurer's question alone: {quoted}"
    said, wanted = folded(" ".join(first_columns(text))), " ".join(demands)
    if said != wanted:
        yield f"{STATEMENT}: the first columns are not the demands: {first_difference(said, wanted)}"


def named_last(text, otherwise):
    """The source that a text names last."""
    return (SOURCE.findall(text) or [otherwise])[-1]


def pieces_of_document(text, page):
    """Each paragraph, list item and table row of a document, without code, and the source that the heading above it names."""
    text = re.sub(r"^    .*$", "", text, flags=re.M)
    source = page
    for piece in re.split(r"\n\s*\n|\n(?=\||- |\d+\. |> )", text):
        if piece.startswith("#"):
            source = named_last(piece, page)
        yield re.sub(r"`[^`\n]*`", "", piece), source


def pieces_of_code(text):
    """Each comment, lines that follow each other with nothing before the comment's sign, and the source that the first one names."""
    comments = [re.sub(r"^ *(?:--|//)", "", comment, flags=re.M) for comment in re.findall(r"(?:^ *(?:--|//).*\n)+", text, re.M)]
    return [(comment, (SOURCE.findall(comments[0]) or [""])[0]) for comment in comments]


def quotations(path):
    """Each text in quotation marks, and the source that it is said to be of."""
    text = path.read_text()
    for piece, source in pieces_of_code(text) if path in CODE else pieces_of_document(text, "demand" if path == STATEMENT else ""):
        piece = folded(piece)
        for found in QUOTATION.finditer(piece):
            yield found.group(1), named_last(piece[:found.start()], source)


def is_part(quotation, whole):
    """Whether each piece of a quotation is a literal part, one after the other."""
    place = 0
    for piece in re.split(r"\s*\.\.(?:\s+|$)", quotation):
        found = whole.find(piece, place)
        if found < 0:
            return False
        place = found + len(piece)
    return True


def faults_of_quotations():
    """Texts that are said to be a demand's and are not."""
    whole = folded(re.sub(r"^(?:\d\. )?> ", "", DEMANDS.read_text(), flags=re.M))
    for path in DOCUMENTS + CODE:
        for quotation, source in quotations(path):
            if re.fullmatch(DEMAND, source) and not is_part(quotation, whole):
                yield f'{path}: no demand says "{quotation}"'


def faults_of_decisions():
    """Numbers that two decisions have, and marked decisions that the statement does not name."""
    found = MARKED.findall(DECISIONS.read_text())
    numbers = [number for number, _ in found]
    for number in sorted({number for number in numbers if numbers.count(number) > 1}):
        yield f"{DECISIONS}: two decisions are {number}"
    for line in DECISIONS.read_text().splitlines():
        if line.startswith("| ") and not MARKED.match(line) and not line.startswith("| no. |"):
            yield f"{DECISIONS}: a decision has no number: {line[:60]}"
    marked = {number for number, mark in found if mark}
    named = set(re.findall(r"\bD\d+\b", STATEMENT.read_text()))
    for number in sorted(marked - named):
        yield f"{STATEMENT}: {number} is marked for a signer and not named"
    for number in sorted(named - set(numbers)):
        yield f"{STATEMENT}: there is no decision {number}"


def main():
    wrong = [*faults_of_statement(), *faults_of_quotations(), *faults_of_decisions()]
    for line in wrong:
        print(line)
    return 1 if wrong else 0


if __name__ == "__main__":
    sys.exit(main())
