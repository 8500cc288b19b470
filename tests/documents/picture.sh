# docs/rooms.svg is what crates.txt and the rooms' first sentences give now, and no room has a way back up. What the tool does is tried on
# a small case.
set -u
. tests/shared/complaints.sh
root=$(pwd)
work=$(mktemp -d) || exit 1
trap 'rm -rf "$work"' EXIT
for room in low middle c_mspm0 aside; do
    mkdir -p "$work/crates/$room/src"
    echo "// Of $room. And more." >"$work/crates/$room/src/lib.rt"
done
list() { # LINE..
    printf '%s\n' '# Each crate' '' '# First group' "$@" '' '# Second group' 'aside: low io' >"$work/crates.txt"
}

# In the small case the tool ends with STATUS and says WORDS.
ends() { # STATUS WORDS ARGUMENT..
    wanted=$1 words=$2
    shift 2
    (cd "$work" && python3 -B "$root/tools/rooms_picture.py" "$@") >"$work/said" 2>&1
    status=$?
    [ "$status" -eq "$wanted" ] || complain "rooms_picture.py $*: status $status, and $wanted is wanted"
    case $(cat "$work/said") in
    *"$words"*) ;;
    *) complain "rooms_picture.py $*: does not say '$words', but: $(cat "$work/said")" ;;
    esac
}

list 'low:' 'middle: low' 'c_mspm0: low middle'
ends 1 "is not what crates.txt gives now" --check picture.svg
ends 0 "" picture.svg
ends 0 "" --check picture.svg
for words in '>Of middle.<' '>Second group<' '>aside<'; do
    grep -qF -- "$words" "$work/picture.svg" || complain "the picture has not: $words"
done
# Of the small case's four arrows that from c_mspm0 to low is left out; a fifth leads in.
[ "$(grep -c marker-end "$work/picture.svg")" -eq 4 ] || complain "the picture has another number of arrows"
echo "// Of another." >"$work/crates/low/src/lib.rt"
ends 1 "is not what crates.txt gives now" --check picture.svg
list 'low: middle' 'middle:' 'c_mspm0: low middle'
ends 1 "low stands on middle, which is not listed before it" picture.svg
list 'low: low' 'c_mspm0: low'
ends 1 "low stands on low, which is not listed before it" picture.svg
list 'low:' 'c_mspm0: middle low'
ends 1 "c_mspm0 stands on middle, which is not listed before it" picture.svg
list 'low:'
ends 1 "c_mspm0, where a call comes in, is not listed" picture.svg
ends 2 "usage:"

python3 -B tools/rooms_picture.py --check docs/rooms.svg || bad=1
exit "$bad"
