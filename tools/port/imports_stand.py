#!/usr/bin/env python3
"""Says which imports of this repository's own modules name something that the module does not declare.

usage: tools/port/imports_stand.py [TOP]

Looks at each 'use Rattle.c.specs.M.{..}' of crates/*/specs and proofs, and at each 'ghost use' of crates/*/src. What Rattle makes (declared, contracts,
TheVariants, Tie, Statement ..) is left out. Also says which words in camel case are left, and counts declared names by shape. Status 1 if one is missing.
"""
import collections
import os
import re
import sys

sys.dont_write_bytecode = True
sys.path.insert(0, os.path.dirname(os.path.realpath(__file__)))
import respell


def main(argv):
    if argv in (["-h"], ["--help"]):
        print(__doc__)
        return 0
    os.chdir(argv[0] if argv else ".")
    crates = sorted(c for c in os.listdir("crates") if os.path.isdir(os.path.join("crates", c)))
    names = respell.Names(crates)
    modules = {respell.module_of(p): p for p in names.paths}
    for p in names.paths:
        if p.endswith("/Lib.antt"):
            modules[respell.module_of(p)[:-len(".Lib")]] = p
    missing, looked = [], 0

    def look(p, path, group):
        nonlocal looked
        if not names.is_own(path) or respell.MADE.search(path + "."):
            return
        for it in filter(None, (x.strip() for x in group.split(","))):
            it = it.split(" as ")[0].strip()
            looked += 1
            home = modules.get(path)
            if home is None or it not in names.declared[home] and it not in names.imported[home]:
                missing.append(f"{p}: {path}.{it}")

    for p in names.paths:
        for path, group, alias in respell.USE.findall(names.code[p]):
            look(p, path, group)
    for c in crates:
        for p in respell.files_below(os.path.join("crates", c, "src"), ".rt"):
            for path, group in respell.GHOST_USE.findall(respell.read(p)):
                look(p, path, group)
    for it in missing:
        print("missing: " + it)
    shapes = collections.Counter()
    for p in names.paths:
        for name, kind in names.declared[p].items():
            shape = "camel" if respell.CAMEL.fullmatch(name) else "dashed" if "-" in name else "Upper" if name[0].isupper() else "snake"
            shapes[("specs" if "/specs/" in p else "proofs", shape)] += 1
    print(", ".join(f"{a} {b}: {n}" for (a, b), n in sorted(shapes.items())))
    print(f"{looked} imported names looked at, {len(missing)} missing")
    return 1 if missing else 0


if __name__ == "__main__":
    raise SystemExit(main(sys.argv[1:]))
