"""Tries files of wrong programs: a copy of the crate, outside of the repository, with them in it, is checked over the libraries as they are
built, and over what a check of the crate as it stands has proved. What the prover says is kept below ~/.cache/bhorelmu/tried (or
XDG_CACHE_HOME), where it can be, by a sum over all that it read: the same is tried once on a machine."""
import contextlib
import hashlib
import os
import pathlib
import re
import shutil
import sys
import tempfile
import threading

from prover import PARTS, below, called, make_ready, texts_sum
from wrong_programs import Misuse, programs_in

STORE = pathlib.Path(os.environ.get("XDG_CACHE_HOME") or pathlib.Path.home() / ".cache", "bhorelmu/tried")


def put_into(copy, program):
    """Puts a wrong program into the copy of its crate."""
    pairs = list(program.replacements())
    where = f"{program.file}: {program.name}"
    if not pairs:
        raise Misuse(f"{where}: there is no pair of an 'old:' and a 'new:' line")
    for file, old, new in pairs:
        path = copy / file
        if not file.startswith(tuple(f"{part}/" for part in PARTS)) or ".." in path.parts or not path.is_file():
            raise Misuse(f"{where}: the crate has no file {file} below {', '.join(PARTS)}")
        text = path.read_text()
        if text.count(old) != 1:
            raise Misuse(f"{where}: the text '{old}' stands {text.count(old)} times in {file}, and must stand there once")
        path.write_text(text.replace(old, new))


def copied(crate, room):
    """A copy of what a proof of the crate reads."""
    for part in PARTS:
        if pathlib.Path("crates", crate, part).is_dir():
            shutil.copytree(f"crates/{crate}/{part}", room / part)
    return room


def linked(one, other):
    """A second name for what was proved, which a check replaces and never changes; a copy of the rest."""
    try:
        if one.endswith(".oantt"):
            return os.link(one, other)
    except OSError:
        pass
    return shutil.copy2(one, other)


class Tries:
    """The tries of one run. To be used in a `with`, which removes what it made."""

    def __enter__(self):
        self.room = pathlib.Path(tempfile.mkdtemp(prefix="bhorelmu-tries-"))
        self.seeds, self.turn, self.turns = {}, threading.Lock(), {}
        return self

    def __exit__(self, *_):
        shutil.rmtree(self.room, ignore_errors=True)

    def seed(self, crate):
        """What a check of the crate as it stands has proved: its own, or else one that is made here."""
        with self.turn:
            turn = self.turns.setdefault(crate, threading.Lock())
        with turn:
            if crate not in self.seeds:
                place = self.room / "seeds" / crate
                own = pathlib.Path("crates", crate, "out/incremental")
                place.parent.mkdir(parents=True, exist_ok=True)
                if own.is_dir():
                    shutil.copytree(own, place, symlinks=True, copy_function=linked)
                with self.turn:
                    status, said = make_ready(crate)
                if status == 0:
                    place.mkdir(exist_ok=True)
                    done = called("check", crate, f"crates/{crate}", "--jobs", "1", "--incremental", place)
                    status, said = done.returncode, done.stdout
                if status != 0:
                    raise Misuse(f"{crate} as it stands, or what it stands on, is not proved: {said[-500:]}")
                self.seeds[crate] = place
            return self.seeds[crate]

    def check(self, crate, name, programs):
        """The status of the prover on a copy with wrong programs in it, and what it said."""
        place = pathlib.Path(tempfile.mkdtemp(prefix=f"{name}-", dir=self.room))
        try:
            (place / "crate").mkdir()
            for program in programs:
                put_into(copied(crate, place / "crate") if program is programs[0] else place / "crate", program)
            seed = self.seed(crate)
            print(f"checking {crate} with {', '.join(program.name for program in programs)} in it", file=sys.stderr, flush=True)
            shutil.copytree(seed, place / "seed", symlinks=True, copy_function=linked)
            done = called("check", crate, place / "crate", "--jobs", "1", "--incremental", place / "seed")
            return done.returncode, done.stdout
        finally:
            shutil.rmtree(place, ignore_errors=True)

    def said(self, file):
        """What the prover says of a file of wrong programs, and why it shows no refusal, if so."""
        crate = file.parts[-3]
        whole = hashlib.sha256((texts_sum([*below(crate), crate]) + crate + file.read_text()).encode()).hexdigest()
        kept = STORE / whole
        if kept.is_file():
            return kept.read_text(errors="replace"), ""
        status, said = self.check(crate, file.stem, programs_in(file))
        if status == 0:
            return said, "ACCEPTED: the crate is proved with this in it"
        if status != 1 or not re.search("^logic=not-proved", said, re.M):
            return said, f"neither proved nor refused, status {status}: {said[:300]}"
        with contextlib.suppress(OSError):
            STORE.mkdir(parents=True, exist_ok=True)
            made = STORE / f"{whole}.{os.getpid()}.{threading.get_ident()}"
            made.write_text(said)
            made.replace(kept)
        return said, ""


if __name__ == "__main__":
    print(__doc__)
    sys.exit(0 if sys.argv[1:] in (["-h"], ["--help"]) else 2)
