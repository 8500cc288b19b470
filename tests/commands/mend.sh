# Mending through the built program: what it prints of an image, what `make mend` stores, and that the image itself is never written to. Run
# after `rt ci`.
set -u
. tests/shared/complaints.sh
work=$(mktemp -d) || exit 1
trap 'rm -rf "$work"' EXIT
tools/is_current.sh crates/mend/out/mend || tools/progress.py program mend >"$work/log" 2>&1 || {
    cat "$work/log"
    exit 1
}
# The program is built, so its `rt run` is left out: it would be proved once more, since `rt run` takes nothing that `rt ci` has proved.
mkdir "$work/bin"
printf '#!/bin/sh\n[ "$1" = run ] || exec "%s" "$@"\n' "$(command -v rt)" >"$work/bin/rt"
chmod +x "$work/bin/rt"

# IMAGE is mended to OUT: it stays as it was, and SAID is printed.
mends() { # IMAGE OUT SAID
    cp "$1" "$work/kept"
    PATH="$work/bin:$PATH" make -s mend IMAGE="$1" OUT="$2" >"$work/printed" 2>"$work/log" || complain "$1: status $?: $(cat "$work/log")"
    cmp "$1" "$work/kept" || complain "$1: the image was written to"
    cmp "$work/printed" "$3" || complain "$1: not what is expected"
    [ "$(wc -c <"$2")" -eq 1024 ] || complain "$1: no image of 1,024 bytes"
}

# IMAGE is refused with a NUMBER, and nothing is stored.
refuses() { # IMAGE NUMBER
    rm -f "$work/out"
    tools/mend/mend_image.sh "$1" "$work/out" >"$work/printed" 2>"$work/log"
    status=$?
    grep -q "docs/DEPOT.md says what to do" "$work/log" || complain "$1: does not say where to look"
    [ "$status" -eq 1 ] || complain "$1: status $status"
    grep -q "^refused $2: " "$work/printed" || complain "$1: not refused with $2"
    tail -n 1 "$work/printed" | grep -qx 'passwords cannot be judged' || complain "$1: does not say what it cannot judge"
    [ "$(wc -l <"$work/printed")" -eq 2 ] || complain "$1: says more than that"
    [ ! -e "$work/out" ] || complain "$1: a file was made"
}

# The crate's own image: one byte wrong of the table, two of the filler and two values.
sed '/^image$/,$d' crates/mend/stdout >"$work/said"
mends crates/mend/stdin "$work/two words" "$work/said"
python3 -c 'import sys; print(open(sys.argv[1], "rb").read().hex(" ").upper())' "$work/two words" | fold -w 48 | sed 's/ $//' >"$work/hex"
sed '1,/^image$/d;s/^ //' crates/mend/stdout | cmp - "$work/hex" || complain "the file has not the bytes that are printed"

# What was mended stays as it is, and so does a blank image.
printf 'bytes changed\n  table 0\n  filler 0\n  values 0\n  checksum 0\npasswords cannot be judged\n' >"$work/none"
mends "$work/two words" "$work/again" "$work/none"
cmp "$work/two words" "$work/again" || complain "mended twice it is another"
head -c 1024 /dev/zero | LC_ALL=C tr '\000' '\377' >"$work/blank"
mends "$work/blank" "$work/again" "$work/none"
cmp "$work/blank" "$work/again" || complain "a blank image is changed"

head -c 1023 "$work/blank" >"$work/short"
{ cat "$work/blank" && printf '\377'; } >"$work/long"
{ printf '\002\000\007\000' && head -c 1020 "$work/blank"; } >"$work/form 2"
: >"$work/empty"
refuses "$work/short" 3
refuses "$work/long" 3
refuses "$work/empty" 3
refuses "$work/form 2" 5

# A file of another name that is the image itself is not written to either.
cp crates/mend/stdin "$work/image"
ln "$work/image" "$work/hard link"
tools/mend/mend_image.sh "$work/image" "$work/hard link" >"$work/printed" 2>&1 && complain "a second name of the image is taken for OUT"
cmp "$work/image" crates/mend/stdin || complain "the image was written over by its second name"

# A refused image leaves what OUT had.
cp "$work/again" "$work/out"
tools/mend/mend_image.sh "$work/short" "$work/out" >"$work/printed" 2>&1 && complain "a short image: status 0"
cmp "$work/again" "$work/out" || complain "a refused image has changed OUT"
exit "$bad"
