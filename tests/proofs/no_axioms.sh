# No library stands on an axiom: no file of it has one, and the prover, which refuses any, has proved each. Of a program the prover names the C
# functions that it reads and writes with, and no other; of the library for C none. Run after `rt ci`, which says nothing of a program that an
# earlier run has proved: such a one is checked here.
set -u
. tests/shared/complaints.sh
. tools/shared/toolchain.sh
seen=0
work=$(mktemp -d) || exit 1
trap 'rm -rf "$work"' EXIT
find_compiler && build_library || exit 1

# The lines of the prover on one crate, in the log of a whole run, which the gate names.
gate=${GATE_LOG:-target/rt_ci.log}
said_of() { # CRATE
    awk -v head="== $1" '$0 == head { on = 1; next } /^== / { on = 0 } on' "$gate"
}

# Of a program: what stands for reading, for writing, and for telling why either failed.
allowed='^axioms (libc: (libc::(read|write)(, )?)+ |os: (os::c::(__xpg_strerror_r|rattle_errno)(, )?)+ |[a-z]+: none reached )'

for crate in crates/*; do
    name=${crate#crates/}
    seen=$((seen + 1))
    grep -Eq "^rt: $name (proved$|is kept: )|^$name: ok$" "$gate" || complain "$crate: $gate does not say that it is proved"
    grep -rnE '^ *axiom( |$)|\bPrim\.Axiom\b' "$crate/src" "$crate/specs" "$crate/proofs" --include=*.antt --include=*.rt 2>/dev/null &&
        complain "$crate: an axiom"
    said_of "$name" >"$work/said"
    if [ -f "$crate/src/main.rt" ]; then
        grep -q '^logic=proved ' "$work/said" || tools/prover.py check "$name" >"$work/said" 2>&1
        named=$(grep '^axioms' "$work/said" | grep -Ev "$allowed")
    elif grep -Eq "^$name staticlib" crates.txt; then
        cp "target/staticlib/$name.log" "$work/said" || : >"$work/said"
        named=$(grep '^axioms' "$work/said" | grep -v ': none reached of the ')
    else
        grep '^axioms' "$work/said" && complain "$crate: a library that the prover names axioms of"
        continue
    fi
    grep -q '^logic=proved ' "$work/said" || complain "$crate: the prover does not say that it is proved"
    grep -q '^axioms' "$work/said" || complain "$crate: the prover does not say what it stands on"
    [ -z "$named" ] || complain "$crate: $named"
done
[ "$seen" -gt 0 ] || complain "there is no crate"
exit "$bad"
