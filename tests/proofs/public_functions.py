"""Every public function of a library has one promise and refuses nobody: one `ensures`, no `requires`, and at least two wrong
programs of its own, as their first lines say (tools/wrong_programs.py).

- A function of a trait of the repository is public where the trait is, and its promise is the trait's. What a type has of such a trait is
  no public function beside it: a wrong program of `TYPE::FUNCTION` is one of `TRAIT::FUNCTION`.
- A function that a type has of a trait of the toolchain is public where the first line of its `impl` names no type that the crate hides. Its
  promise is the ghost member of that `impl`: one that ends in `_gives` is told of the arguments and the answer.
- No two public functions of a library have one name, else wrong programs of the one would count for the other."""
import collections
import functools
import pathlib
import re
import sys
import typing

from wrong_programs import bare, blocks_in, functions_in, programs_of

PUBLIC = re.compile(r'^ *pub (?:extern "C" )?fn')
DECLARED = re.compile(r"^(pub )?(?:pub\(crate\) )?(struct|enum|type|trait) (\w+)", re.M)
GHOST = re.compile(r"^ +ghost (\w+) = \{ *((?:.|\n)*?) *\};$", re.M)
RELATION = re.compile(r"λ ([^.]+)\. (.*)", re.S)


class Public(typing.NamedTuple):
    """A public function: its file, its name, its text up to its body, with its promise, and the trait or `impl` that it stands in."""
    source: pathlib.Path
    name: str
    head: str
    block: typing.Optional[tuple]


def libraries():
    """The folders of the crates that others can call."""
    return [path.parent.parent for path in sorted(pathlib.Path("crates").glob("*/src/lib.rt"))]


def declared(library, kinds):
    """The types or traits that a library declares, and whether each is public."""
    texts = [source.read_text() for source in sorted(library.glob("src/*.rt"))]
    return {name: bool(public) for text in texts for public, kind, name in DECLARED.findall(text) if kind in kinds}


def pieces(text):
    """What stands between the commas of a text that are within no brackets."""
    found, depth = [""], 0
    for before, letter in zip(f" {text}", text):
        depth += (letter in "([{<") - (letter in ")]}" or letter == ">" and before != "-")
        if letter == "," and depth == 0:
            found.append("")
        else:
            found[-1] += letter
    return [piece.strip() for piece in found if piece.strip()]


def handed(head):
    """The name and the type of each parameter of a function."""
    opened = re.search(r"fn \w+(?:<.*?(?<!-)>(?=\())?\(", head).end()
    depth, end = 1, opened
    while depth:
        depth += {"(": 1, ")": -1}.get(head[end], 0)
        end += 1
    for piece in pieces(head[opened:end - 1]):
        name, _, kind = piece.removeprefix("mut ").partition(":")
        yield (name.strip(), kind.strip()) if kind else ("self", name.replace("self", "Self"))


def with_promise(function):
    """The head of a function of an `impl` of a trait of the toolchain's library, with the promise that its ghost members are."""
    head = function.head
    for name, said in GHOST.findall(function.block.text):
        if name.endswith("_gives"):
            names, found = [*(name for name, _ in handed(head)), "result"], RELATION.fullmatch(said)
            said = found[2] if found else " ".join([said, *names])
            for old, new in zip(found[1].split() if found else [], names):
                said = re.sub(rf"(?<![\w.]){re.escape(old)}(?!\w)", new, said)
        head += f"\n        ensures {{ {said} }}"
    return head


def public_functions(library):
    """Each public function of a library."""
    types, traits = declared(library, {"struct", "enum", "type"}), declared(library, {"trait"})
    hidden = {name for name, public in [*types.items(), *traits.items()] if not public}
    for source in sorted(library.glob("src/*.rt")):
        for it in functions_in(source):
            if not it.block or not it.block.trait and it.block.kind != "trait":
                if PUBLIC.match(it.text):
                    yield Public(source, it.name, it.head, it.block)
            elif it.block.kind == "trait":
                if traits[it.block.owner]:
                    yield Public(source, it.name, it.head, it.block)
            elif bare(it.block.trait) not in all_traits() and hidden.isdisjoint(re.findall(r"\w+", f"{it.block.trait} {it.block.owner}")):
                yield Public(source, it.name, with_promise(it), it.block)


@functools.cache
def all_traits():
    """The traits that the libraries declare, and what each says."""
    sources = [source for library in libraries() for source in sorted(library.glob("src/*.rt"))]
    return {block.owner: block.text for source in sources for block in blocks_in(source.read_text()) if block.kind == "trait"}


def names_of(library, function):
    """The names under which wrong programs of a public function can stand."""
    names = {function.name}
    if function.block and function.block.kind == "trait":
        for source in sorted(library.glob("src/*.rt")):
            names |= {it.name for it in functions_in(source) if it.block and it.block.trait and bare(it.block.trait) == function.block.owner
                      and it.name.endswith(f"::{function.name.rpartition('::')[2]}")}
    return names


def wrong_in(crate):
    breaks = [set(program.functions) for program in programs_of(crate.name)]
    functions = list(public_functions(crate))
    for name, count in collections.Counter(function.name for function in functions).items():
        if count > 1:
            yield f"{crate.name} has {count} public functions with the name {name}"
    for function in functions:
        source, name, head, _ = function
        promises = len(re.findall(r"^ *ensures\b", head, re.M))
        broken = sum(not names_of(crate, function).isdisjoint(names) for names in breaks)
        if promises != 1:
            yield f"{source}: {name} has {promises} ensures, and 1 is wanted"
        if re.search(r"^ *requires\b", head, re.M):
            yield f"{source}: {name} has a requires"
        if broken < 2:
            yield f"{source}: {name} has {broken} wrong programs, and 2 are wanted"


def main():
    crates = libraries()
    wrong = [line for crate in crates for line in wrong_in(crate)]
    for line in wrong:
        print(line)
    return 1 if wrong or not crates else 0


if __name__ == "__main__":
    sys.exit(main())
