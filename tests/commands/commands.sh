# The commands: `make` alone lists them all, and wrong use of one is told plainly, with a status that is not 0, before anything is proved.
# Nothing is proved here: an `rt` of the test's own stands before the toolchain's.
set -u
. tests/shared/complaints.sh
work=$(mktemp -d) || exit 1
trap 'rm -rf "$work"' EXIT
mkdir "$work/bin"
cat >"$work/bin/rt" <<'STUB'
#!/bin/sh
echo "$@" >>"$CALLED"
case $1 in
doc) exec echo "${0%/bin/rt}/START-HERE.md" ;;
version) exec echo "a kit of the test's own" ;;
lib) exit 0 ;;
esac
cat "$SAYS"
exit "$STATUS"
STUB
# A check of the crate as it stands proves it; one with a wrong program in it says what it is told to.
cat >"$work/bin/rattle" <<'STUB'
#!/bin/sh
case $PWD in */crate) sed 's/^/in the copy: /' src/lib.rt && cat "$SAYS" && exit "$STATUS" ;; esac
echo logic=proved
STUB
chmod +x "$work/bin/rt" "$work/bin/rattle"
export CALLED="$work/called" SAYS=/dev/null STATUS=1

# A COMMAND is wrong use: it ends with a status that is not 0, says WORDS, and calls no prover.
refuses() { # WORDS COMMAND..
    words=$1
    shift
    rm -f "$CALLED"
    PATH="$work/bin:$PATH" "$@" >"$work/said" 2>&1 && complain "$*: status 0"
    grep -qF -- "$words" "$work/said" || complain "$*: does not say '$words', but: $(cat "$work/said")"
    [ ! -e "$CALLED" ] || complain "$*: calls rt $(cat "$CALLED")"
}

make >"$work/help" || complain "make alone: status $?"
for command in $(sed -n 's/^\.PHONY: help //p' Makefile); do
    grep -q "^  make $command " "$work/help" || complain "make alone does not tell of make $command"
done
for command in $(sed -n 's/^  make \([a-z]*\) .*/\1/p' "$work/help"); do
    grep -q "^$command:" Makefile || complain "make alone tells of make $command, and there is none"
done
for tool in tools/*.sh tools/*/*.sh tools/*.py tools/*/*.py tools/try_edit .ci/run; do
    case $tool in tools/shared/*) continue ;; esac
    case $tool in *.py) set -- python3 -B "$tool" ;; *) set -- "$tool" ;; esac
    "$@" -h >"$work/said" 2>&1 || complain "$tool -h: status $?"
    [ "$(wc -l <"$work/said")" -ge 2 ] || complain "$tool -h says nothing"
done
refuses "is an unknown option" .ci/run --fast

# The wrong program that CONTRIBUTING.md shows is one that there is.
sed -n 's/^    //p' CONTRIBUTING.md >"$work/shown"
example=$(sed -n 's|^tools/try_edit \([a-z_0-9]*/[a-z_0-9]*\)$|\1|p' "$work/shown")
awk -v RS= -v name="${example#*/}" '$2 == name' crates/"${example%/*}"/must-fail/*.edit >"$work/example"
[ -s "$work/example" ] && grep -xF -f "$work/example" "$work/shown" | cmp -s - "$work/example" ||
    complain "CONTRIBUTING.md does not show $example as it is"

for number in abc 0 '' -1 1.5 '1 2' 08 1000000000 "1'2"; do
    refuses "N=$number: the number of calls is a whole number from 1 to 999999999" make compare N="$number"
done

printf '0 12\n' >"$work/session.text"
printf '0 12\n0 1\n' >"$work/wrong line.txt"
cp crates/runner/stdin "$work/script.txt"
: >"$work/empty"
refuses "no file is named" make run SCRIPT=
refuses "no such part; there are mspm0" make run PART=msp430
refuses "no such part" make run PART=
refuses "no such part" make run PART=AM13E230x
refuses "no such part" make run PART="mspm0 am13e230x"
refuses "there is no such file" make run SCRIPT="$work/missing.txt"
refuses "there is no such file" make run SCRIPT="$work/two words"
refuses "a folder or a device" make run SCRIPT="$work"
refuses "a folder or a device" make run SCRIPT=/dev/null
refuses "a name that ends in .txt" make run SCRIPT="$work/session.text"
refuses "a name that ends in .txt" make run SCRIPT="$work/empty"
refuses "a name without .txt" make run SCRIPT="$work/script.txt"
refuses "wrong line.txt: line 2: '1' is not a byte" make run SCRIPT="$work/wrong line.txt"
# root reads every file, and so asks as nobody
chmod 755 "$work"
cp tools/sessions/look_at_script.sh "$work/look"
: >"$work/unreadable" && chmod 000 "$work/unreadable"
nobody=
[ "$(id -u)" -ne 0 ] || nobody="setpriv --reuid=65534 --regid=65534 --clear-groups"
refuses "cannot be read" $nobody "$work/look" "$work/unreadable"
printf '0 12\n' >"$work/two words.txt"
tools/sessions/look_at_script.sh "$work/two words.txt" || complain "a name with a space is not taken"

refuses "no image is named" make mend
refuses "there is no such file" make mend IMAGE="$work/missing" OUT="$work/out"
refuses "a folder or a device" make mend IMAGE="$work" OUT="$work/out"
refuses "no file is named for the mended image" make mend IMAGE="$work/empty"
refuses "this is the image itself" make mend IMAGE="$work/empty" OUT="$work/empty"
ln -s empty "$work/link"
refuses "this is the image itself" make mend IMAGE="$work/empty" OUT="$work/link"
refuses "a folder or a device" make mend IMAGE="$work/empty" OUT="$work"
refuses "this is the image itself" make mend IMAGE="$work/empty" OUT="$work/bin/../empty"
refuses "there is no folder" make mend IMAGE="$work/empty" OUT="$work/none/out"
refuses "this names a folder" make mend IMAGE="$work/empty" OUT="$work/none/"
cp tools/mend/look_at_files.sh "$work/look_at_files"
refuses "cannot be read" $nobody "$work/look_at_files" "$work/unreadable" "$work/out"
refuses "nothing can be written to" $nobody "$work/look_at_files" "$work/script.txt" "$work/out"
refuses "this file cannot be written to" $nobody "$work/look_at_files" "$work/script.txt" "$work/unreadable"
[ ! -e "$work/out" ] || complain "make mend: a refused call has made a file"

refuses "no place is named" make install PREFIX=
refuses "write the folder out" make install PREFIX='~/here'
refuses "is not taken; name another" make install PREFIX='/tmp/a"b'
refuses "nothing can be written to" make install PREFIX="$work/empty"

# A repository of two crates and a program, to be proved by the test's own `rt`.
repository=$work/repository
mkdir -p "$repository/crates/low/src" "$repository/crates/low/must-fail" "$repository/crates/high/src"
printf 'low:  # the lowest\nhigh: low\n' >"$repository/crates.txt"
printf 'fn main() {}\n' >"$repository/crates/high/src/main.rt"
printf 'one\none two\nfn f() {\n    four\n}\nfn g() {\n    five\n}\n' >"$repository/crates/low/src/lib.rt"
edit() { # NAME LINES
    printf "$2" >"$repository/crates/low/must-fail/$1.edit"
}
edit good '# good (f): wrong\nfile: src/lib.rt\nold: two\nnew: three\n'
edit twice '# twice (f): wrong\nfile: src/lib.rt\nold: one\nnew: three\n'
edit nowhere '# nowhere (f): wrong\nfile: src/lib.rt\nold: ten\nnew: three\n'
edit outside '# outside (f): wrong\nfile: ../../crates.txt\nold: high\nnew: three\n'
edit fileless '# fileless (f): wrong\nold: two\nnew: three\n'
edit empty '# empty (f): nothing\n'
edit pair '# left (f): wrong\nfile: src/lib.rt\nold: four\nnew: 4\n\n# right (g): wrong\nfile: src/lib.rt\nold: five\nnew: 5\n'

# In that repository, with an `rt` that SAYS this and ends with STATUS, a COMMAND ends with WANTED and says WORDS.
ends() { # STATUS SAYS WANTED WORDS COMMAND..
    STATUS=$1 wanted=$3 words=$4
    printf "$2" >"$work/lines"
    shift 4
    (cd "$repository" && SAYS="$work/lines" STATUS=$STATUS PATH="$work/bin:$PATH" "$@") >"$work/said" 2>&1
    status=$?
    [ "$status" -eq "$wanted" ] || complain "$*: status $status"
    grep -qF -- "$words" "$work/said" || complain "$*: does not say '$words', but: $(cat "$work/said")"
}

root=$(pwd)
ran="rt: high ran, and wrote what its file stdout has\nrt: high ran (built by Rattle's own compiler), and wrote what its file stdout has\n"
ends 0 "rt: low proved\nrt: high proved\n$ran" 0 'ran 1 of 1 programs' "$root/tools/progress.py" ci
ends 0 '== low\nlogic=proved\n' 0 'proved 1 of 2 crates' "$root/tools/progress.py" check
ends 0 'checked low::f, 1 of 2\n' 0 'checked low::f, 1 of 2' "$root/tools/progress.py" check low
ends 0 'rt: low is kept: an earlier run\n' 0 'proved 1 of 2 crates' "$root/tools/progress.py" ci
ends 0 'rt: must-fail low/good.edit: refused, as it must be: x\n' 0 'refused 1 of 8 wrong programs' "$root/tools/progress.py" ci
ends 0 'rt: must-fail low/pair.edit: refused, as it must be: x\n' 0 'refused 2 of 8 wrong programs' "$root/tools/progress.py" ci
ends 1 'rt: low NOT PROVED\n' 1 'low NOT PROVED' "$root/tools/progress.py" ci
ends 1 'fn low::f: no proof: x\nlogic=not-proved\n' 1 'fn low::f: no proof' "$root/tools/progress.py" check low
ends 1 'rt: low NOT PROVED\n' 1 'target/rt_ci.log has all that it said' "$root/tools/progress.py" ci
ends 0 '' 2 'tools/progress.py check [CRATE..]' "$root/tools/progress.py" prove
ends 0 '' 2 'crates.txt has no crate lower; it has high, low' "$root/tools/progress.py" check lower

ends 1 './proofs/f/Answers.antt:1:1: error: no proof\nlogic=not-proved\n' 0 'low/good: refused' "$root/tools/try_edit" low/good
ends 1 './proofs/f/Answers.antt:1:1: error: no proof\nlogic=not-proved\n' 0 './proofs/f/Answers.antt:1:1: error: no proof' "$root/tools/try_edit" low/good
grep -q 'in the copy: one three' "$repository/target/try/low/good.log" || complain "try_edit does not put the edit into the copy"
grep -q 'one two' "$repository/crates/low/src/lib.rt" || complain "try_edit changes the crate itself"
ends 0 'logic=proved\n' 1 'low/good: ACCEPTED' "$root/tools/try_edit" low/good
ends 1 'src/lib.rt:1:1: error: a word too many\n' 2 'neither proved nor refused, status 1' "$root/tools/try_edit" low/good
ends 0 '' 2 'stands 2 times in src/lib.rt' "$root/tools/try_edit" low/twice
ends 0 '' 2 'stands 0 times in src/lib.rt' "$root/tools/try_edit" low/nowhere
ends 0 '' 2 'has no file ../../crates.txt' "$root/tools/try_edit" low/outside
ends 0 '' 2 "has no 'file:' and 'old:' line" "$root/tools/try_edit" low/fileless
ends 0 '' 2 'there is no pair' "$root/tools/try_edit" low/empty
ends 0 '' 2 'no wrong program and no file missing; it has empty, fileless, good, left, nowhere' "$root/tools/try_edit" low/missing
ends 0 '' 2 'crates.txt has no crate lower; it has high, low' "$root/tools/try_edit" lower/good
ends 0 '' 2 "'low' is not CRATE/NAME" "$root/tools/try_edit" low

# Two wrong programs of one file: tried together each must have an error of its own, and one of them can be tried alone.
at_f='fn low::f: no proof: expected answers; `search` did not prove `returns`\n'
at_g='./proofs/g/Answers.antt:1:1: error: no proof\n'
ends 1 "$at_f${at_g}logic=not-proved\n" 0 'low/right: refused, as it must be' "$root/tools/try_edit" low/pair
ends 1 "${at_f}logic=not-proved\n" 1 'low/right: NOT SHOWN TO BE REFUSED' "$root/tools/try_edit" low/pair
ends 1 "${at_f}logic=not-proved\n" 0 'low/left: refused, as it must be' "$root/tools/try_edit" low/left
grep -q 'in the copy:.*five' "$repository/target/try/low/left.log" || complain "try_edit puts more into the copy than the one that it is to try"
ends 1 "${at_g}logic=not-proved\n" 1 'low/left: NOT SHOWN TO BE REFUSED' "$root/tools/try_edit" low/left
exit "$bad"
