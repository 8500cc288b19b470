#!/usr/bin/env python3
"""Makes the index of documents 01 and 02: each sentence by its first words, and the definitions that quote it.

    tools/make_index.py RULES REQUESTS INDEX             writes INDEX
    tools/make_index.py --check RULES REQUESTS INDEX     writes nothing, and says whether INDEX is what would be written

RULES is the file of document 01 and REQUESTS that of document 02, which are no part of the repository; INDEX is docs/INDEX.md. Of the
requests those stand in the index that a comment quotes. To be run in the repository's root.

A quotation is a text in quotation marks in a comment of a crate, where the source named last before it, in the comment or else in the
first comment of the file, is 01 or none; between the two, for a comment within a definition, comes the source of what is quoted first
before that definition. ".." in it stands for words left out. It counts for every sentence that it has words of. Words that stand in
several sections of 01 count for the section that was named last, else for the first, and fewer than three such words for none; of
several places in a section the first counts. Where the source named last is a request, as T-03, the quotation is of that request. A
quotation belongs to the definition that its comment stands before or within, else to its file.

Status 0: all is well. 1: INDEX is another, or a comment says that 01 or a request has words that it has not. 2: wrong use, or a file that cannot be
read or written."""
import collections
import pathlib
import re
import sys

WORDS_SHOWN = 6
COMMENT = re.compile(r"(?:^[ ]*(?:--|//).*\n)+", re.M)
QUOTATION = re.compile(r'"([^"]+)"')
SOURCE = re.compile(r"\b(?:[Dd]emands?|[Ii]nsurer|01|004|000|002|T-\d\d)\b(?! [0-9A-F]{2}\b)")
REQUEST = re.compile(r"^\*\*(T-\d\d [^*]*)\.\*\* (.*)$", re.M)
SECTION = re.compile(r"(?:01, |; )([A-Z][\w ]+)")
DEFINITION = re.compile(r'(?:(?:unfoldable |abbrev )?(?:pub )?([^\s():]+) :\s'
                        r'| *(?:pub(?:\(crate\))? )?(?:extern "C" )?(?:fn|const|static|type|trait|record|struct|enum) (\w+)'
                        r'|impl\b(?:<[^<>]*>)? (?:\S+ for )?(\w+)'
                        r'| +(?:unfoldable |abbrev )?pub ([^\s():]+) :\s)')

Section = collections.namedtuple("Section", "title text sentences")
Sentence = collections.namedtuple("Sentence", "begin end")


class Misquoted(Exception):
    """A comment says that 01 or a request has words that it has not."""


def folded(text):
    return " ".join(text.split())


def pieces_of(body):
    """The paragraphs, list items and table rows of a section, without marks and without what stands between fences."""
    body = re.sub(r"^```.*?^```\n", "", body, flags=re.M | re.S)
    body = re.sub(r"^\|.*\|\n\|[-|: ]+\|\n", "", body, flags=re.M)
    for piece in re.split(r"\n\s*\n|\n(?=\||- )", body):
        row = piece.startswith("|")
        piece = folded(re.sub(r"\*+|^- |\|", "", piece))
        if piece:
            yield from [piece] if row else re.split(r"(?<=\.)(?<!\d\.\.) (?=[A-Z0-9(\"]|docs/)", piece)


def section_of(title, body):
    """A section: its title, its text, and where each sentence stands in it."""
    whole, sentences = "", []
    for sentence in pieces_of(body):
        sentences.append(Sentence(len(whole), len(whole) + len(sentence)))
        whole += sentence + " "
    return Section(folded(title.replace("*", "")), whole, sentences)


def sections_of(text):
    """The sections of document 01."""
    parts = re.split(r"^## (.*)\n", text, flags=re.M)
    return [section_of(title, body) for title, body in zip(parts[1::2], parts[2::2])]


def requests_of(text):
    """The requests of document 02, each as a section."""
    return [section_of(title, body) for title, body in REQUEST.findall(text)]


def named_section(words, sections):
    """The number of the section of 01 that the words name last."""
    for title in reversed(SECTION.findall(words)):
        for number, section in enumerate(sections):
            if section.title.startswith(title.strip()):
                return number
    return None


def spans_in(quotation, text):
    """Where the pieces of a quotation stand in a text, one after the other; nothing where one is missing."""
    spans, place = [], 0
    for piece in re.split(r"\.\.(?!\d)|;", quotation):
        piece = piece.strip(" ,;")
        if piece:
            found = text.find(piece, place)
            if found < 0:
                return []
            place = found + len(piece)
            spans.append((found, place))
    return spans


def sentences_of(quotation, named, sections):
    """The sentences that a quotation has words of, as numbers of a section and of a sentence in it."""
    found = {number: spans_in(quotation, section.text) for number, section in enumerate(sections)}
    there = [number for number, spans in found.items() if spans]
    if not there or named not in there and len(there) > 1 and len(quotation.split()) < 3:
        return
    chosen = named if named in there else there[0]
    for number, sentence in enumerate(sections[chosen].sentences):
        if any(begin < sentence.end and end > sentence.begin for begin, end in found[chosen]):
            yield chosen, number


def definition_at(text, comment):
    """The definition that a comment stands before or within; none for a comment on the file."""
    found = DEFINITION.match(re.sub(r"\A(?: *#\[.*\n)+", "", text[comment.end():]))
    if not found and comment.group().startswith(" "):
        before = [DEFINITION.match(line + "\n") for line in text[:comment.start()].splitlines()]
        found = next((match for match in reversed(before) if match), None)
    return found.group(found.lastindex) if found else ""


def places_in_request(quotation, source, requests):
    """The sentences of a request that a quotation has words of."""
    number = next((at for at, request in enumerate(requests) if request.title.startswith(source)), None)
    if number is None or not spans_in(quotation, requests[number].text):
        raise Misquoted(f'request {source} does not say "{quotation}"')
    return [(source, sentence) for _, sentence in sentences_of(quotation, 0, [requests[number]])]


def places_in_rules(quotation, source, named, rules):
    """The sentences of document 01 that a quotation has words of."""
    if source == "01" and not any(spans_in(quotation, section.text) for section in rules):
        raise Misquoted(f'document 01 does not say "{quotation}"')
    return list(sentences_of(quotation, named, rules))


def source_above(text, comment, comments, otherwise):
    """The source of what is quoted first before the definition that a comment stands within."""
    if comment.group().startswith(" "):
        name = definition_at(text, comment)
        above = next((other for other in reversed(comments) if other.start() < comment.start() and not other.group().startswith(" ")), None)
        if name and above and definition_at(text, above) == name:
            return (SOURCE.findall(above.group().split('"')[0]) or [otherwise])[-1]
    return otherwise


def quotations_in(path, rules, requests):
    """Each quotation of 01 or of a request in a file: the sentences that it has words of, and the definition that it belongs to."""
    text = path.read_text()
    comments = list(COMMENT.finditer(text))
    words = [folded(re.sub(r"^ *(?:--|//)", "", comment.group(), flags=re.M)) for comment in comments]
    first = (SOURCE.findall(words[0]) or [""])[0] if words else ""
    section = named_section(words[0], rules) if words else None
    for comment, said in zip(comments, words):
        unnamed = source_above(text, comment, comments, first)
        for found in QUOTATION.finditer(said):
            before = said[:found.start()]
            source = (SOURCE.findall(before) or [unnamed])[-1]
            if source.startswith("T-"):
                yield places_in_request(found.group(1), source, requests), definition_at(text, comment)
            elif source in ("01", ""):
                named = named_section(before, rules)
                places = places_in_rules(found.group(1), source, section if named is None else named, rules)
                yield places, definition_at(text, comment)


def index_of(rules, requests):
    """For each sentence, the files and definitions that quote it."""
    index = collections.defaultdict(dict)
    # the prover leaves copies of definitions in crates/*/out
    for path in sorted(path for part in ("src", "specs", "proofs") for path in pathlib.Path("crates").glob(f"*/{part}/**/*")):
        if path.suffix not in (".rt", ".antt"):
            continue
        try:
            for places, name in quotations_in(path, rules, requests):
                for place in places:
                    index[place].setdefault(path, []).append(name)
        except Misquoted as fault:
            raise Misquoted(f"{path}: {fault}") from fault
    return index


def cell_of(quoting):
    """The definitions that quote a sentence, file by file."""
    cells = []
    for path, names in quoting.items():
        named = ", ".join(f"`{name}`" for name in dict.fromkeys(names) if name)
        cells.append(f"{named} (`{path}`)" if named else f"`{path}`")
    return "; ".join(cells) or "not quoted"


def rows_of(section, key, number, index):
    """The table of a section; `key` is its name in the index, `number` that before each sentence's own."""
    yield from ["", "| no. | begins | quoted by |", "|---|---|---|"]
    for place, sentence in enumerate(section.sentences):
        words = section.text[sentence.begin:sentence.end].replace('"', "'").split()
        begins = " ".join(words[:WORDS_SHOWN]) + (" .." if len(words) > WORDS_SHOWN else "")
        yield f'| {number}.{place + 1} | "{begins}" | {cell_of(index.get((key, place), {}))} |'


def page_of(rules, requests, index):
    """The index as a page."""
    whole = sum(len(section.sentences) for section in rules)
    quoted = sum(isinstance(key, int) for key, _ in index)
    yield from ["# Index of documents 01 and 02", "",
                "Which definitions, laws and functions quote which sentence of document 01, and of the requests of document 02 that are built, in",
                "their comments. A sentence stands here by its first words, a row of a table likewise. `make index` writes this page",
                "(`tools/make_index.py -h` says by which rules), and the gate makes it again where the documents are at hand",
                "(`tests/documents/index.sh`).", "",
                f"Of {whole} sentences of document 01 {quoted} are quoted; the others are marked \"not quoted\"."]
    for number, section in enumerate(rules):
        yield from ["", f"## {number + 1}. {section.title}", *rows_of(section, number, number + 1, index)]
    for request in requests:
        name = request.title.split()[0]
        if any(key == name for key, _ in index):
            yield from ["", f"## {request.title}", *rows_of(request, name, name, index)]


def main(arguments):
    if arguments in (["-h"], ["--help"]):
        print(__doc__)
        return 0
    check = arguments[:1] == ["--check"]
    files = arguments[1:] if check else arguments
    if len(files) != 3:
        print(__doc__, file=sys.stderr)
        return 2
    scope, wishes, page = map(pathlib.Path, files)
    try:
        rules, requests = sections_of(scope.read_text()), requests_of(wishes.read_text())
        text = "\n".join(page_of(rules, requests, index_of(rules, requests))) + "\n"
        if not check:
            page.write_text(text)
        elif page.read_text() != text:
            print(f"{page} is not what the documents and the crates give: make index SCOPE={scope} REQUESTS={wishes}")
            return 1
    except Misquoted as fault:
        print(fault)
        return 1
    except OSError as error:
        print(f"{error.filename}: {error.strerror}; SCOPE= names the file of document 01, REQUESTS= that of document 02", file=sys.stderr)
        return 2
    return 0


if __name__ == "__main__":
    sys.exit(main(sys.argv[1:]))
