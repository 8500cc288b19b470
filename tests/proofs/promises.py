"""The law of "one answer" of each public function says what the function's contract says.

docs/PROMISES.md names the law of each function ("One answer: `law`"), and what its contract speaks of ("Equal to `this`"). What
the law must say is written from the head of the function by these rules, and compared with the law in LAWS:

- The parameters stand in their order, under their names. A number is a ℕ, a `bool` a Bool, a slice or an array of bytes a List ℕ, `()` a Unit;
  other types keep their names, without lifetimes, and `A<B, C>` is `A B C`.
- Before them stand the const parameters, and then the ghost members that the promise speaks of: those of the trait where it is a trait's,
  and of a type parameter `T` those of its trait, as `T.member`.
- An answer is what is returned, then what is left of each parameter that is lent to be written, in the order of the parameters.
  Where it has several parts it is `r`, its type is written out, and its parts are `r.0`, `r.1` and so on. Else it is `r`
  where it is returned, and `x'` where it is left of `x`.
- The promise is the contract's. `x.now`, `x.old` and `x.entry` become `x`, `x.new` the answer's part for `x`, `T.member` the member, and
  `result` the part for what is returned. `result.now`, the bytes of a slice that is returned, becomes `r`.
- A word stands for what its file fetches under that name: both files must fetch it from the same place.

What a stream gives is not always known, and then no promise can say it. So a function that reads one has no law (STREAMS); docs/PROMISES.md says
what it promises, and its wrong programs hold each part of that. Nor has one whose promise is a function of the value, as that of a `Display`:
what it gives is one by its form."""
import pathlib
import re
import sys
import typing

from documents import PROMISES, cited, sections
from public_functions import all_traits, handed, libraries, pieces, public_functions
from wrong_programs import bare

LAWS = pathlib.Path("crates/claims/proofs/Answers/Promises.antt")
LAW = re.compile(r"^pub (\S+) : (.*(?:\n .*)*)", re.M)
STATEMENT = re.compile(r"(?:((?:\([^():]+ : [^()]+\) )+)→ )?OneAnswer (?:\{A = ([^}]*)\} )?\(λ (\S+)\. (.*)\)")
HEAD = re.compile(r"\)(?: -> (\S.*))?(?:\n *where .*)?\n *ensures(?: \w+)? \{ (.*) \};?$")
GENERICS = re.compile(r"fn \w+<(.*?)(?<!-)>\(")
MEMBER = re.compile(r"^ *ghost (\w+): \{ (.*) \};", re.M)
USE = re.compile(r"^ *(?:ghost )?use ([^\s{]+?)(?:\.\{([^}]*)\}| as (\w+));?$", re.M)
STREAMS = [("program_io", "read_full")]
TYPES = {"u8": "ℕ", "u16": "ℕ", "u32": "ℕ", "u64": "ℕ", "usize": "ℕ", "bool": "Bool", "()": "Unit"}


class Said(typing.NamedTuple):
    """What a law says, or must say. The answer's type is not said where the answer has one part."""
    parameters: list
    answer_type: typing.Optional[str]
    answer: str
    promise: str


def type_in_laws(kind, owner):
    """The type that stands in the laws for one of the code, lent or not. `Self` is the owner."""
    kind = re.sub(r"^&?(?:mut )?", "", re.sub(r"'\w+(?:, |\s)?", "", kind))
    array, applied = re.fullmatch(r"\[([^;]*)(?:; .*)?\]", kind), re.fullmatch(r"([\w:]+)<(.*)>", kind)
    if array or applied:
        arguments = [type_in_laws(piece, owner) for piece in pieces((array or applied)[1 if array else 2])]
        return " ".join(["List" if array else bare(applied[1]), *(f"({it})" if " " in it else it for it in arguments)])
    return owner if kind == "Self" else TYPES.get(kind, bare(kind))


def with_places(promise, text, parameters):
    """A promise in which each word that the text of its file fetches has the place that it is fetched from."""
    places = {}
    for module, names, alias in USE.findall(text):
        module = module.replace("Rattle.std.proofs.Common", "Rattle.std.specs.Prelude")
        for name in re.findall(r"[^\s,]+", names):
            places[name.strip("◌")] = f"{module}.{name}"
        if alias:
            places[alias] = module
    for name, _ in parameters:
        places.pop(name, None)
    return re.sub(r"\.?[^\s().]+", lambda word: places.get(word.group(), word.group()), promise)


def parts_of_answer(parameters, returned):
    """How a contract speaks of each part of the answer, and the part's type."""
    parts = [("result", returned)] if returned else []
    return parts + [(f"{name}.new", kind) for name, kind in parameters if "mut " in kind]


def names_in_law(parts):
    """How a law speaks of each part of the answer."""
    if len(parts) > 1:
        return [f"r.{place}" for place in range(len(parts))]
    return ["r" if spoken == "result" else re.sub(r"\.new$", "'", spoken) for spoken, _ in parts]


def in_words_of_law(contract, parts, names):
    """A contract's promise, rewritten for a law that speaks of the answer's parts by these names."""
    text = re.sub(r"«(\w+)»", r"\1", contract)
    text = re.sub(r"\bresult\.now\b", "result", text)
    text = re.sub(r"(?<![\w.])(\w+)\.(?:now|old|entry)\b", r"\1", text)
    for (spoken, _), name in zip(parts, names):
        text = re.sub(rf"(?<!\w){re.escape(spoken)}(?!\w)", name, text)
    return text


def parameters_before(function, promise):
    """The const parameters of a function, and the ghost members that its promise speaks of, and the promise that speaks of these by their names."""
    block, found = function.block, GENERICS.search(function.head)
    generics = [*pieces(block.kind[len("impl<"):-1] if block else ""), *pieces(found[1] if found else "")]
    before = [(name, TYPES[kind]) for name, kind in re.findall(r"const (\w+): (\w+)", ", ".join(generics))]
    bounds = [(f"{name}.", bound) for name, bound in re.findall(r"^(\w+): (\w+)", "\n".join(generics), re.M)]
    if block and block.kind == "trait":
        bounds.append(("", block.owner))
    for at, trait in bounds:
        for member, kind in MEMBER.findall(all_traits().get(trait, "")):
            spoken = rf"(?<![\w.]){re.escape(at + member)}(?!\w)"
            if re.search(spoken, promise):
                before.append((member, kind))
                promise = re.sub(spoken, member, promise)
    return before, promise


def said_by_contract(function, text):
    """What the law of a function must say. The text is that of the function's file."""
    returned, contract = HEAD.search(function.head).groups()
    owner, parameters = bare(function.block.owner) if function.block else "", list(handed(function.head))
    before, contract = parameters_before(function, contract)
    handed_over = [*before, *((name, type_in_laws(kind, owner)) for name, kind in parameters)]
    parts = parts_of_answer(parameters, returned)
    names = names_in_law(parts)
    promise = with_places(in_words_of_law(contract, parts, names), text, handed_over)
    if len(parts) == 1:
        return Said(handed_over, None, names[0], promise)
    return Said(handed_over, " × ".join(type_in_laws(kind, owner) for _, kind in parts), "r", promise)


def said_by_law(statement):
    """What a law says."""
    binders, answer_type, answer, promise = STATEMENT.fullmatch(statement).groups()
    groups = re.findall(r"\(([^:]+) : ([^)]+)\)", binders or "")
    parameters = [(name, kind) for names, kind in groups for name in names.split()]
    return Said(parameters, answer_type, answer, with_places(promise, LAWS.read_text(), parameters))


def all_laws():
    """The statement of each law, on one line."""
    return {name: " ".join(statement.split()) for name, statement in LAW.findall(LAWS.read_text())}


def all_functions():
    """Each public function, by crate and name."""
    return {(library.name, function.name): function for library in libraries() for function in public_functions(library)}


def all_promises():
    """What docs/PROMISES.md says of each function, by crate and name."""
    found = {}
    for crate, section in sections().items():
        for name, paragraph in re.findall(r"^\*\*`([\w:]+)`\*\*(.*(?:\n.+)*)", section, re.M):
            found[crate, name] = paragraph
    return found


def law_named_in(paragraph):
    """The law that a paragraph of the promises names, if any."""
    found = re.search(r"One answer: `(\S+)`", paragraph)
    return found and found.group(1)


def equal_to(paragraph):
    """The definitions that the answer is equal to, as a paragraph of the promises says."""
    sentence = re.split("One answer|Shut out", paragraph.partition("Equal to")[2])[0]
    return [text for text in cited(sentence) if "/" not in text]


def has_law(promise):
    """Whether the promise is of an answer, and not itself what is given."""
    return not promise.startswith("λ ")


def wrong_words(promise, paragraph):
    """What is wrong with the definitions that a paragraph names."""
    right_side = promise.partition("≡")[2] or promise
    if not equal_to(paragraph):
        yield f"{PROMISES} does not say what it is equal to"
    for word in equal_to(paragraph):
        if not re.search(rf"(?<!\w){re.escape(word)}(?!\w)", right_side):
            yield f"{PROMISES} says that it is equal to {word}, and its contract does not"


def wrong_law(function, law, laws):
    """What is wrong with the law that the promises name for a function."""
    if law not in laws:
        yield f"{PROMISES} names no law of {LAWS} for it"
        return
    if not STATEMENT.fullmatch(laws[law]):
        yield f"{law} has a form that cannot be compared"
        return
    for field, one, other in zip(Said._fields, said_by_law(laws[law]), said_by_contract(function, function.source.read_text())):
        if one != other:
            yield f"{law} has the {field} {one}, and the contract {other}"


def wrong_with(function, paragraph, laws):
    """All that is wrong with what is said of a function."""
    found = HEAD.search(function.head)
    if not found:
        return ["its contract has a form that cannot be compared"]
    law = law_named_in(paragraph)
    if has_law(found[2]):
        return [*wrong_words(found[2], paragraph), *wrong_law(function, law, laws)]
    return [*wrong_words(found[2], paragraph), *([f"{PROMISES} says that it has a law, {law}"] if law else [])]


def main():
    laws, functions, promises = all_laws(), all_functions(), all_promises()
    named = {law_named_in(paragraph) for paragraph in promises.values()}
    wrong = []
    for (crate, name), function in functions.items():
        if (crate, name) in STREAMS:
            continue
        wrong += [f"{crate}::{name}: {fault}" for fault in wrong_with(function, promises.get((crate, name), ""), laws)]
    wrong += [f"{PROMISES}: {crate} has no public function {name}" for crate, name in promises if (crate, name) not in functions]
    wrong += [f"{LAWS}: {law} is the law of no function" for law in laws if law not in named]
    wrong += [f"{crate}::{name}, of STREAMS, is no public function, or {PROMISES} does not tell of it" for crate, name in STREAMS
              if (crate, name) not in functions or (crate, name) not in promises]
    for line in wrong:
        print(line)
    return 1 if wrong or not functions else 0


if __name__ == "__main__":
    sys.exit(main())
