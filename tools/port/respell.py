#!/usr/bin/env python3
"""Brings this repository's own definitions and lemmas to today's spelling.

    tools/port/respell.py             writes
    tools/port/respell.py --check     writes nothing; says what a run would do

To be run at the top of the repository, after the kit's port.py and before any work by hand; docs/PORT.md names the commit. A second run there finds nothing more to
do, and a later one takes names of today's goals for its own. Status 0, or 1 where two names would fall together: then nothing is written.

The rule is the kit's (CONTRACT_STYLE.md, "Names"): types and modules are in upper camel case, all else is in snake case: definitions, fields, constructors,
lemmas and variables. A dash stands only between two names, after which an equation is called: its left side, the outer call first (`length-bytes_of`). A
lemma that would have its function's name ends in `_lem`. A name from the Rust source, and one that Rattle makes, keeps its spelling.

What it turns:
- crates/*/specs and crates/*/proofs: each name in camel case; each name with a dash that these files declare or bind; the constructors of their `data`;
  the definitions that are types. A name behind a dot turns if it is in camel case, or stands behind a module of this repository. In a file Proof.antt a
  declaration keeps its name where Rattle gives the goal that name.
- crates/*/src: what clauses, ghost items and comments say of these.
- crates/*/must-fail: the old and the new texts, and what the first lines say of these.
- README.md, CONTRIBUTING.md and docs/*.md: whole words between backticks. Each other line that has such a word is shown, 'look:', and so is each of a
  script below tools/, tests/, bench/ and the like.
"""
import collections
import os
import re
import sys

# What is settled by hand, as it is no lemma that would have its function's name: a file, a variable in it, and its name there, as long as the file has
# the word that it would fall together with.
SETTLED = {
    ("crates/flash/proofs/RegionLaws.antt", "inMain"): ("main_told", "in-main"),
    ("crates/flash/proofs/RegionLaws.antt", "inSettings"): ("settings_told", "in-settings"),
    ("crates/flash/proofs/RegionLaws.antt", "inWindow"): ("window_told", "in_window"),
    ("crates/claims_restarts/proofs/Pairs.antt", "cut"): ("after_cut", "Cut"),
}
# What pages cite of the library, and of the constructors, which are spelled like commands of the line.
CITED = {"getD": "get_or", "ne-eqb": "ne_eqb", "Cut": "cut"}
# Pages of what was, which keep the names that things had then.
PAST = ("CHANGELOG.md", "docs/landings/", "docs/PORT.md")

NAME = r"""[^\s(){}.;,@"«»]+"""
WORD = re.compile(NAME)
# strings, and comments up to the line's end or within {- -}
QUIET = re.compile(r'"(?:[^"\\\n]|\\.)*"|(?<![^\s(){}.;,@"«»])--[^\n]*|\{-.*?-\}', re.S)
DECLARED = re.compile(r"^( *)((?:(?:pattern|unfoldable|abbrev|pub|axiom) )*)((?:data|record) )?((?:[^\s(){}.;,@\"«»:=]+ )+?)((?:\{[^{}\n]*\} )*(?:[({][^\n]*? )?):(?=[ \n])", re.M)
USE = re.compile(r"^ *(?:pub )?use ([^\s{]+?)\.?(?:\{([^}]*)\}| as (\S+))?\s*$", re.M)
GHOST_USE = re.compile(r"ghost use ([\w.]+?)\.\{([^}]*)\};")
CAMEL = re.compile(r"[a-z][a-z0-9]*[A-Z][A-Za-z0-9]*")
DASHED = re.compile(r"[a-z0-9_]+(?:-[A-Za-z0-9_]+)+")
# what Rattle makes beside what stands here
MADE = re.compile(r"\.(?:Tie|Statement|Symbol|Met|Code|TheVariants|TheLaws|contracts|declared|Goals|Given)(?:\.|$)")


def in_snake_case(word):
    word = re.sub(r"(?<=[a-z0-9])(?=[A-Z])", "_", word)
    word = re.sub(r"(?<=[A-Z])(?=[A-Z][a-z])", "_", word)
    return word.lower()


def in_camel_case(word):
    return "".join(part[:1].upper() + part[1:] for part in in_snake_case(word).split("_"))


def code_of(text):
    """An antt text with spaces in place of its comments and strings."""
    return QUIET.sub(lambda it: re.sub(r"[^\n]", " ", it[0]), text)


def files_below(top, *ends):
    found = []
    for folder, folders, files in os.walk(top):
        folders[:] = sorted(it for it in folders if it not in ("out", ".git"))
        found += [os.path.join(folder, it) for it in sorted(files) if it.endswith(ends)]
    return found


class Names:
    """What the repository's antt files declare, and how it is to be spelled."""

    def __init__(self, crates):
        self.crates = crates
        self.paths = [p for c in crates for part in ("specs", "proofs") for p in files_below(os.path.join("crates", c, part), ".antt")]
        self.text = {p: read(p) for p in self.paths}
        self.code = {p: code_of(self.text[p]) for p in self.paths}
        self.declared = collections.defaultdict(dict)   # file -> name -> kind
        self.where = collections.defaultdict(set)       # name -> files
        self.types = collections.defaultdict(list)      # name -> texts of its type
        self.imported = {}                              # file -> name -> path
        self.aliases = {}                               # file -> the names of modules of this repository
        for p in self.paths:
            self.read_declarations(p)
            self.read_imports(p)
        self.constructors = {}
        self.read_constructors()
        self.table, self.words = {}, {}
        self.lem = []
        self.spell()

    def read_declarations(self, p):
        code = self.code[p]
        for found in DECLARED.finditer(code):
            marks = found[2] + (found[3] or "")
            kind = "definition" if "/specs/" in p or re.search(r"abbrev|unfoldable", marks) else "lemma"
            if found[3]:
                kind = "type"
            names = found[4].split()
            if names[0] in ("let", "module", "λ", "in", "use", "where", "|") or any(not re.match(r"[A-Za-z_]", it) for it in names):
                continue
            indent, end = found[1], len(code)
            after = re.compile(r"\n(?:%s\S|$)" % indent).search(code, found.end())
            type_text = code[found.end():after.start() if after else end]
            if re.search(r"(?:^|→ )Type(?: [\dℓ]+)?\s*$", type_text.strip()) and not found[3] and kind == "definition":
                kind = "type"
            for name in names:
                self.declared[p].setdefault(name, kind)
                self.where[name].add(p)
                self.types[name].append(type_text)

    def read_imports(self, p):
        self.imported[p], self.aliases[p] = {}, set()
        for path, names, alias in USE.findall(self.code[p]):
            for it in filter(None, (x.strip() for x in names.split(","))):
                self.imported[p][it.split(" as ")[-1].strip()] = path
            if not names and self.is_own(path) and not MADE.search(path):
                self.aliases[p].add(alias or path.split(".")[-1])

    def is_own(self, path):
        steps = path.split(".")
        return steps[0] == "Rattle" and len(steps) > 1 and steps[1] in self.crates

    def read_constructors(self):
        for p in self.paths:
            for block in re.finditer(r"^( *)(?:pub )?data (\S+)[^\n]* where\n((?:\1  [^\n]*\n)+)", self.code[p], re.M):
                for name in re.findall(r"^%s  (?:pub )?(%s) :" % (block[1], NAME), block[3], re.M):
                    self.constructors[name] = module_of(p)
                    self.declared[p][name] = "constructor"

    def spell(self):
        definitions = set()
        for p in self.paths:
            for name, kind in self.declared[p].items():
                if (kind in ("definition", "constructor") or CAMEL.fullmatch(name)) and "-" not in name:
                    definitions.add(in_snake_case(name))
        brought = {name for p in self.paths for name, path in self.imported[p].items() if not self.is_own(path)}
        words = {in_snake_case(it) for it in brought if re.fullmatch(r"[a-z]\w*", it)}
        used = collections.defaultdict(set)
        for p in self.paths:
            self.words[p] = set(WORD.findall(self.code[p]))
            for at, name in words_of(self.code[p]):
                if self.code[p][at - 1:at] != ".":
                    used[name].add(p)
        # in camel case: of this repository, as the library has none any more; what is brought from there stays in any case
        for p in self.paths:
            for at, name in words_of(self.code[p]):
                if CAMEL.fullmatch(name) and name not in brought:
                    self.table[name] = in_snake_case(name)
        for name, files in self.where.items():
            if name in self.table and any(self.declared[p].get(name) == "type" for p in files):
                self.table[name] = in_camel_case(name)
        # with a dash: declared here, or bound in a file that does not bring it from elsewhere
        for name in used:
            if not DASHED.fullmatch(name) or (name not in self.where and name in brought):
                continue
            new = self.with_dash(name, definitions | words) or in_snake_case(name.replace("-", "_"))
            if "-" not in new and new in definitions | words and name in self.where:
                new += "_lem"
                self.lem.append((name, new))
            if new != name:
                self.table[name] = new
        for name, module in self.constructors.items():
            if name != in_snake_case(name):
                self.table[name] = in_snake_case(name)

    def with_dash(self, name, functions):
        """The name with a dash, if it is called after a function of a function that its type speaks of."""
        parts = [in_snake_case(it) for it in name.split("-")]
        for i in range(1, len(parts)):
            outer, inner = "_".join(parts[:i]), "_".join(parts[i:])
            if outer not in functions:
                continue
            for text in self.types.get(name, []):
                spelled = re.sub(r"[A-Za-z][\w]*", lambda it: in_snake_case(it[0]), text)
                if re.search(r"(?<![\w'.-])%s \(%s(?![\w'-])" % (re.escape(outer), re.escape(inner)), spelled) and inner in functions:
                    return f"{outer}-{inner}"
        return None

    def turned(self, p, at, name, code, in_comment=False):
        """How a word of an antt text is to be spelled."""
        if (p, name) in SETTLED and code[at - 1:at] != "." and SETTLED[p, name][1] in self.words[p]:
            return SETTLED[p, name][0]
        new = self.table.get(name)
        if new is None:
            return name
        if name in self.constructors:
            module = self.constructors[name]
            mine = module_of(p) == module or self.imported.get(p, {}).get(name) == module
            return new if mine and code[at - 1:at] != "." and not in_comment else name
        if "-" in name:
            if p.endswith("/Proof.antt") and name in self.declared[p] and re.search(r"\.(?:Need-)?%s(?![\w'-])" % re.escape(name), self.code[p]) and not name.endswith("-spec"):
                return name
            if code[at - 1:at] == ".":
                head = re.search(r"([\w.·'-]+)\.$", code[:at])
                head = head[1] if head else ""
                if not (head in self.aliases.get(p, ()) or self.is_own(head) and not MADE.search("." + head)):
                    return name
        return new


def module_of(p):
    """crates/c/specs/A/B.antt -> Rattle.c.specs.A.B"""
    steps = p[:-len(".antt")].split("/")
    return ".".join(["Rattle"] + steps[1:])


def words_of(text):
    return [(it.start(), it[0]) for it in WORD.finditer(text)]


def read(p):
    with open(p, encoding="utf-8") as f:
        return f.read()


def turn_antt(names, p, text):
    code = code_of(text)

    def quiet(it):
        if it[0][0] == '"':
            return it[0]
        return turn_prose(names, p, it[0])

    out, last = [], 0
    for it in QUIET.finditer(text):
        out += [turn_code(names, p, text, code, last, it.start()), quiet(it)]
        last = it.end()
    out.append(turn_code(names, p, text, code, last, len(text)))
    return "".join(out)


def turn_code(names, p, text, code, start, end):
    out, last = [], start
    for it in WORD.finditer(text, start, end):
        out += [text[last:it.start()], names.turned(p, it.start(), it[0], code)]
        last = it.end()
    return "".join(out) + text[last:end]


def turn_prose(names, p, text):
    """A comment: each word in camel case; one with a dash between backticks."""
    def camel(it):
        return names.table.get(it[0], it[0])
    text = re.sub(r"(?<![\w'-])[a-z][a-z0-9]*[A-Z][A-Za-z0-9]*(?![\w'-])", camel, text)
    return re.sub(r"`([a-z0-9]+(?:-[A-Za-z0-9]+)+)`", lambda it: f"`{names.table.get(it[1], it[1])}`", text)


RUST = re.compile(r'//[^\n]*|b?"(?:\\.|[^"\\])*"|b?\'(?:\\.|[^\'\\])\'')


def turn_rt(names, p, text):
    """Of a Rust source the clauses, the ghost items and the comments. The code itself has no name in camel case that begins small."""
    out, last = [], 0
    for it in RUST.finditer(text):
        out += [turn_clauses(names, text[last:it.start()]), turn_prose(names, p, it[0]) if it[0].startswith("//") else it[0]]
        last = it.end()
    return "".join(out + [turn_clauses(names, text[last:])])


def turn_clauses(names, text):
    return re.sub(r"(?<![\w'-])[a-z][a-z0-9]*[A-Z][A-Za-z0-9]*(?![\w'-])", lambda it: names.table.get(it[0], it[0]), text)


def turn_edit(names, p, text):
    out, path = [], ""
    crate = p.split("/must-fail/")[0]
    for line in text.split("\n"):
        if line.startswith("file: "):
            path = os.path.join(crate, line[len("file: "):].strip())
        elif line.startswith(("old: ", "new: ")):
            body = line[5:]
            if path.endswith(".antt"):
                body = turn_antt(names, path, body)
            else:
                body = turn_rt(names, path, body)
            line = line[:5] + body
        elif line.startswith("#"):
            line = turn_prose(names, p, line)
        out.append(line)
    return "\n".join(out)


def fallen_together(names):
    """What would mean two things: for each file, the names that get one spelling."""
    said = []
    for p in names.paths:
        code = names.code[p]
        meets = collections.defaultdict(set)
        for it in WORD.finditer(code):
            name, before = it[0], code[:it.start()].rstrip()
            if code[it.start() - 1:it.start()] == ".":
                continue
            # a label of a record has its own place
            if code[it.end():it.end() + 3].startswith(" =") and before[-1:] in ("{", ";") or is_field(names, p, name, it.start()):
                continue
            meets[names.turned(p, it.start(), name, code)].add(name)
        for new, olds in sorted(meets.items()):
            if len(olds) > 1:
                said.append(f"{p}: {' and '.join(sorted(olds))} would both be {new}")
    for c in names.crates:
        for p in files_below(os.path.join("crates", c, "src"), ".rt"):
            said += fallen_in_rust(names, p)
    return said


FIELD = re.compile(r"^( *)(?:pub )?(?:%s )+: " % NAME)


def is_field(names, p, name, at):
    """Whether a word is a field where it is declared: it stands before the ' : ' of a line within a record."""
    code = names.code[p]
    line = code.rfind("\n", 0, at) + 1
    end = code.find("\n", at)
    text = code[line:end if end >= 0 else len(code)]
    found = FIELD.match(text)
    if not found or at - line >= found.end():
        return False
    indent = len(found[1])
    back = line
    while back > 0:
        start = code.rfind("\n", 0, back - 1) + 1
        row = code[start:back - 1]
        if row.strip() and len(row) - len(row.lstrip()) < indent:
            # the head of a record may go over more lines
            head = row
            while not re.match(r" *(?:pub )?(?:record|data|module|abbrev|unfoldable|\S+ :)", head) and start > 0:
                start2 = code.rfind("\n", 0, start - 1) + 1
                head, start = code[start2:start - 1], start2
            return bool(re.match(r" *(?:pub )?record ", head))
        back = start
    return False


FUNCTION = re.compile(r"^ *(?:pub(?:\(crate\))? )?(?:unsafe )?(?:extern \"C\" )?fn (\w+)(.*?)^ *\{ *$|^ *(?:pub(?:\(crate\))? )?fn (\w+)([^\n]*)\{", re.M | re.S)


def fallen_in_rust(names, p):
    """Clauses whose names would be those of a parameter of their function, or of something that the file brings in."""
    text = re.sub(r"//[^\n]*", "", read(p))
    said = []
    for found in FUNCTION.finditer(text):
        head = found[2] or found[4] or ""
        clause = re.search(r"\b(?:requires|ensures)\b", head)
        if not clause:
            continue
        parameters = set(re.findall(r"\b(\w+): ", head[:clause.start()]))
        for word in set(re.findall(r"(?<![\w.])[a-z][a-z0-9]*[A-Z][A-Za-z0-9]*", head[clause.start():])):
            if names.table.get(word) in parameters:
                said.append(f"{p}: in {found[1] or found[3]} {word} would be {names.table[word]}, as a parameter is called")
    uses = {it for path, group in GHOST_USE.findall(text) for it in (x.strip() for x in group.split(","))}
    turned = {names.table.get(it, it): it for it in uses}
    rust = re.sub(r"ghost use[^;]*;", "", text)
    for use in re.findall(r"^ *(?:pub )?use ([^;]*);", rust, re.M):
        for it in re.findall(r"\w+", use.split("::")[-1] if "{" not in use else use[use.index("{"):]):
            if it in turned and turned[it] != it:
                said.append(f"{p}: {turned[it]} would be {it}, which a 'use' brings in")
    if len(turned) < len(uses):
        said.append(f"{p}: two names of its ghost items would be one: {sorted(uses)}")
    return said


def pages():
    found = [it for it in ("README.md", "CONTRIBUTING.md") if os.path.isfile(it)]
    for top in ("docs", "tools", "tests", "examples", "bench", ".ci", "stack", "verification"):
        found += [it for it in files_below(top, ".md", ".py", ".sh", ".txt", "run", "edit")
                  if not it.startswith(PAST) and os.path.abspath(it) != os.path.abspath(__file__)]
    return found


def turn_page(names, known, p, text):
    """A page: whole words between backticks, spelled today's way or that of before the port. And the lines that have one elsewhere."""
    shown = []

    def new_of(word):
        if word in CITED:
            return CITED[word]
        if word in names.constructors:
            return word
        if word in names.table:
            return names.table[word]
        if CAMEL.fullmatch(word) or DASHED.fullmatch(word):
            new = in_snake_case(word.replace("-", "_"))
            return new if new in known else word
        return word

    def span(it):
        return "`" + re.sub(r"(?<![\w./'-])[A-Za-z0-9_]+(?:-[A-Za-z0-9_]+)*(?![\w/'-])", lambda w: new_of(w[0]), it[1]) + "`"

    out = []
    for number, line in enumerate(text.split("\n"), 1):
        new = re.sub(r"`([^`\n]*)`", span, line) if p.endswith(".md") else line
        bare = re.sub(r"`[^`\n]*`", "", line) if p.endswith(".md") else line
        for it in re.findall(r"(?<![\w./'-])[a-z][A-Za-z0-9_]*(?:-[A-Za-z0-9_]+)*(?![\w/'-])", bare):
            if new_of(it) != it and it not in CITED and (CAMEL.fullmatch(it) or it.count("-") > 1):
                shown.append(f"look: {p}:{number}: {it} (now {new_of(it)}): {line.strip()[:110]}")
        out.append(new)
    return "\n".join(out), shown


def main(argv):
    if argv in (["-h"], ["--help"]):
        print(__doc__)
        return 0
    crates = sorted(c for c in os.listdir("crates") if os.path.isdir(os.path.join("crates", c)))
    names = Names(crates)
    said = fallen_together(names)
    if said:
        print("\n".join(said))
        print(f"respell: {len(said)} places where names would fall together; nothing is written")
        return 1
    written = {}
    for p in names.paths:
        written[p] = turn_antt(names, p, names.text[p])
    for c in crates:
        for p in files_below(os.path.join("crates", c, "src"), ".rt"):
            written[p] = turn_rt(names, p, read(p))
        for p in files_below(os.path.join("crates", c, "must-fail"), ".edit"):
            written[p] = turn_edit(names, p, read(p))
    known = {names.table.get(it, it) for p in names.paths for it in names.declared[p]}
    shown = []
    for p in pages():
        try:
            text = read(p)
        except UnicodeDecodeError:
            continue
        written[p], more = turn_page(names, known, p, text)
        shown += more
    renamed = collections.defaultdict(set)
    for p in names.paths:
        for name in names.declared[p]:
            new = names.turned(p, 0, name, " ")
            if new != name:
                renamed[p.split("/")[1]].add((name, new))
    for crate in sorted(renamed):
        for old, new in sorted(renamed[crate]):
            print(f"{crate}: {old} -> {new}")
    for line in shown:
        print(line)
    changed = [p for p in sorted(written) if written[p] != read(p)]
    for p in changed:
        if "--check" not in argv:
            with open(p, "w", encoding="utf-8") as f:
                f.write(written[p])
    count = len({pair for crate in renamed for pair in renamed[crate]})
    print(f"respell: {count} names in {len(renamed)} crates, {len(names.lem)} of them by _lem; {len(changed)} files {'would change' if '--check' in argv else 'changed'}")
    return 0


if __name__ == "__main__":
    raise SystemExit(main(sys.argv[1:]))
