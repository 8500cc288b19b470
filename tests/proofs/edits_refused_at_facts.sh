# Each wrong program is refused by an error of its own, at a fact. Run after `rt ci`. That the tool which reads the logs finds what is
# wrong with them is tried on a small case.
set -u
. tests/shared/complaints.sh
root=$(pwd)
work=$(mktemp -d) || exit 1
trap 'rm -rf "$work"' EXIT
mkdir -p "$work/crates/low/src" "$work/crates/low/must-fail" "$work/said/low" "$work/target"
echo 'low:' >"$work/crates.txt"
cat >"$work/crates/low/src/lib.rt" <<'CODE'
fn callee() -> u8 {
    1
}

fn caller() -> u8 {
    callee() + 2
}
CODE
cat >"$work/crates/low/must-fail/both.edit" <<'EDIT'
# one_less (callee): one less
file: src/lib.rt
old:     1
new:     0

# two_more (caller): two more
file: src/lib.rt
old: + 2
new: + 4
EDIT
fact='error: `x`: the goal does not follow'
masked='error: `x`: `close` was not admitted, so this cannot be checked'
open_fact='no proof: expected answers in ./proofs/x/Answers.antt; `search` did not prove `returns`'
echo='no proof: it calls `low::callee`, which is not proved'

# In the small case, with a log of these LINES, the tool ends with STATUS and says WORDS.
says() { # STATUS WORDS LINES..
    wanted=$1 words=$2
    shift 2
    printf '%s\n' "$@" logic=not-proved >"$work/said/low/$file.log"
    told --said said
}

told() { # ARGUMENTS..
    said=$(cd "$work" && XDG_CACHE_HOME=$work PATH="$work/bin:$PATH" python3 -B "$root/tools/refusals.py" "$@" 2>&1)
    status=$?
    [ "$status" -eq "$wanted" ] || complain "$*: status $status"
    case $said in *"$words"*) ;; *) complain "$*: does not say '$words', but: $said" ;; esac
}

file=both
at_callee='./proofs/callee/Answers.antt:1:2:' at_caller='./proofs/caller/Answers.antt:3:4:'
says 0 '' "$at_callee $fact" "$at_caller $fact"
says 0 '' "$at_caller $masked" "$at_caller $fact" "fn low::callee: $open_fact"
says 0 '' "fn low::callee: $open_fact" "fn low::caller: $open_fact; it calls \`low::callee\`, which is not proved"
says 1 'two_more: no error of its own in the proof of caller' "$at_callee $fact" "$at_caller $masked"
says 1 'one_less: no error of its own in the proof of callee' "$at_caller $fact" './proofs/Laws.antt:1:2: error: `x`: no'
says 1 'two_more: no error of its own' "$at_callee $fact" "fn low::caller: $echo"
says 1 'two_more: no error of its own' "$at_callee $fact" 'fn low::caller: not proved'
says 1 'one_less: refused, and not at a fact' "$at_callee error: \`x\` has no field \`y\`" "$at_callee $fact" "$at_caller $fact"
says 1 'one_less: refused, and not at a fact' "$at_callee error: \`x\`: of a record" '  has no field `y`' "$at_callee $fact" "$at_caller $fact"
rm "$work/said/low/both.log"

# What a type has of a trait stands in a folder with both their names.
cat >>"$work/crates/low/src/lib.rt" <<'CODE'

impl From<Reason> for Kind {
    fn from(reason: Reason) -> Kind {
        Kind { reason, 5 }
    }
}
CODE
printf '# five_less (Kind::from): five less\nfile: src/lib.rt\nold: , 5\nnew: , 0\n' >"$work/crates/low/must-fail/five_less.edit"
file=five_less
printf '%s\n' "$at_callee $fact" "$at_caller $fact" >"$work/said/low/both.log"
says 0 '' "./proofs/KindFromReason/from/Answers.antt:1:2: $fact"
says 0 '' "fn low::KindFromReason::from: $open_fact"
says 1 'five_less: no error of its own in the proof of KindFromReason::from' "./proofs/KindFromOther/from/Answers.antt:1:2: $fact"
says 1 'five_less: no error of its own' "fn low::callee: $open_fact"
sed -i "s/^impl From<Reason> for Kind/impl<'a, L: Layout, const N: usize> From<\&'a other::Reason<L>> for Kind<'a, N>/" "$work/crates/low/src/lib.rt"
says 0 '' "./proofs/KindFromRefReason/from/Answers.antt:1:2: $fact"
rm "$work/crates/low/must-fail/five_less.edit" "$work/said/low/both.log" "$work/said/low/five_less.log"
file=both
wanted=1 words='no log of its refusal'
told --said said

# With no folder each file is tried: here by a prover that proves the crate as it stands, and of the copy with the wrong programs in it says LINES.
mkdir "$work/bin"
cat >"$work/bin/rt" <<'STUB'
#!/bin/sh
case $1 in
doc) echo "${0%/bin/rt}/START-HERE.md" ;;
version) echo "a kit of the test's own" ;;
esac
STUB
cat >"$work/bin/rattle" <<'STUB'
#!/bin/sh
case $PWD in */crate) cat "$SAYS" && grep -q '^logic=proved' "$SAYS" && exit 0 || exit 1 ;; esac
echo logic=proved
STUB
chmod +x "$work/bin/rt" "$work/bin/rattle"
export SAYS="$work/said/lines"
says_of_copy() { # STATUS WORDS LINES..
    wanted=$1 words=$2
    shift 2
    printf '%s\n' "$@" >"$SAYS"
    rm -rf "$work/bhorelmu"
    told
}
says_of_copy 0 'checking low with one_less, two_more in it' "fn low::callee: $open_fact" "$at_caller $fact" logic=not-proved
says_of_copy 1 'two_more: no error of its own' "fn low::callee: $open_fact" "fn low::caller: $echo" logic=not-proved
says_of_copy 1 'ACCEPTED: the crate is proved with this in it' logic=proved
says_of_copy 1 'neither proved nor refused, status 1' 'src/lib.rt:1:1: error: a word too many'

# A wrong definition, alone in its file: that a law no longer stands shows it only where the crate has no function that it names.
rm "$work/crates/low/must-fail/both.edit"
mkdir "$work/crates/low/specs"
echo 'low = 1' >"$work/crates/low/specs/Low.antt"
defines() { # FUNCTION
    printf '# wrong_low (%s): wrong\nfile: specs/Low.antt\nold: 1\nnew: 2\n' "$1" >"$work/crates/low/must-fail/alone.edit"
}
file=alone at_law='./proofs/Laws.antt:1:2:'
defines callee
says 1 'wrong_low: no error of its own' "$at_law $fact"
says 0 '' "$at_law $fact" "$at_caller $fact"
says 0 '' "$at_law $fact" "fn low::callee: $open_fact"
defines high
says 0 '' "$at_law $fact"

python3 -B tools/refusals.py || bad=1
exit "$bad"
