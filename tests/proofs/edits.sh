# Every file of wrong programs can be read, and those that share one do not hide each other. That the test finds what is wrong is tried on
# a small case.
set -u
. tests/shared/complaints.sh
root=$(pwd)
work=$(mktemp -d) || exit 1
trap 'rm -rf "$work"' EXIT
mkdir -p "$work/crates/low/src" "$work/crates/low/specs" "$work/docs"
echo 'shown to bite by `signed`' >"$work/docs/STATEMENT.md"
cat >"$work/crates/low/src/lib.rt" <<'CODE'
const MOST: u8 = 9;

fn one() -> u8
    ensures { λ r. ⌜ r ≡ oneOf 1 ⌝ }
{
    1 + 10
}

fn two() -> u8 {
    MOST + 20
}

fn middle() -> u8 {
    two()
}

fn three() -> u8 {
    middle() + 30
}

impl Kind {
    fn number() -> u8 {
        40
    }
}

pub trait Layout {
    fn size() -> u8
        ensures { λ r. ⌜ r ≡ oneOf 50 ⌝ };

    fn end() -> u8
        ensures { λ r. ⌜ r ≡ oneOf 60 ⌝ }
    { Self::size() + 60 }
}

impl Layout for Kind {
    fn size() -> u8 {
        50
    }
}

impl From<Reason> for Kind {
    fn from(reason: Reason) -> Kind {
        Kind { reason, 70 }
    }
}

impl From<u8> for Other {
    fn from(number: u8) -> Other {
        Other { number, 80 }
    }
}

impl From<u16> for Other {
    fn from(number: u16) -> Other {
        Other { number, 81 }
    }
}

fn sized<L: Layout>() -> u8 {
    L::size() + 90
}

fn turned(asked: Result<u8, Reason>) -> Result<u8, Kind> {
    Ok(asked? + 91)
}
CODE
printf 'use Prim\n\npub first : N\nfirst = 1\n\npub oneOf : N → N\noneOf n = first + n\n' >"$work/crates/low/specs/One.antt"

# A wrong PROGRAM, as a first line has it, that changes OLD in FILE.
program() { # PROGRAM FILE OLD
    printf '# %s: wrong\nfile: %s\nold: %s\nnew: other\n' "$1" "$2" "$3"
}

# In the small case, with these PROGRAMS in FILE, the test ends with STATUS and says WORDS.
says() { # STATUS WORDS FILE PROGRAMS..
    wanted=$1 words=$2 file=$3
    shift 3
    rm -rf "$work/crates/low/must-fail"
    mkdir "$work/crates/low/must-fail"
    printf '%s\n' "$@" >"$work/crates/low/must-fail/$file.edit"
    said=$(cd "$work" && PYTHONPATH="$root/tools" python3 -B "$root/tests/proofs/edits.py")
    status=$?
    [ "$status" -eq "$wanted" ] || complain "$*: status $status"
    case $said in *"$words"*) ;; *) complain "$*: does not say '$words', but: $said" ;; esac
}

in_one=$(program 'a (one)' src/lib.rt '+ 10') in_two=$(program 'b (two)' src/lib.rt '+ 20')
says 0 '' a "$in_one"
says 0 '' both "$in_one" "$in_two"
says 0 '' both "$(program 'c (one)' specs/One.antt 'first = 1')" "$in_two"
says 1 'its name is not that of its one wrong program' c "$in_one"
says 1 'its name is that of a wrong program' a "$in_one" "$in_two"
says 1 'another of low has this name' both "$in_one" "$(program 'a (two)' src/lib.rt '+ 20')"
says 1 'c: changes one, as a does' both "$in_one" "$(program 'c (one)' src/lib.rt '1 + ')"
says 1 'c: changes what one of a speaks of' both "$in_one" "$(program 'c (two)' specs/One.antt 'first = 1')"
says 1 'c: changes what two of b speaks of' both "$in_two" "$(program 'c (one)' src/lib.rt '= 9')"
says 1 'c: changes three, which calls two of b' both "$in_two" "$(program 'c (three)' src/lib.rt '+ 30')"
says 1 'docs/STATEMENT.md names it' both "$in_one" "$(program 'signed (two)' src/lib.rt '+ 20')"
says 0 '' both "$in_one" "$(program 'c (Kind::number)' src/lib.rt 40)"
says 0 '' both "$in_one" "$(program 'c (Kind::size)' src/lib.rt '        50')" "$(program 'd (Kind::from)' src/lib.rt ' 70')" "$(program 'e (Other::from)' src/lib.rt ' 80')" "$(program 'f (Other::from)' src/lib.rt ' 81')"
says 1 'c: changes Layout::end, which calls KindLayout::size of b' both "$(program 'b (Kind::size)' src/lib.rt '        50')" "$(program 'c (Layout::end)' src/lib.rt '+ 60')"
says 1 'c: changes sized, which calls KindLayout::size of b' both "$(program 'b (Kind::size)' src/lib.rt '        50')" "$(program 'c (sized)' src/lib.rt '+ 90')"
says 1 'c: changes turned, which calls KindFromReason::from of b' both "$(program 'b (Kind::from)' src/lib.rt ' 70')" "$(program 'c (turned)' src/lib.rt '+ 91')"
says 1 'low has no function From' a "$(program 'a (From)' src/lib.rt ' 70')"
says 1 'low has no function KindFromReason::from' a "$(program 'a (KindFromReason::from)' src/lib.rt ' 70')"
says 1 'low has no function four' a "$(program 'a (one, four)' src/lib.rt '+ 10')"
says 1 'low has no function number' a "$(program 'a (number)' src/lib.rt 40)"
says 1 "'u8' does not stand once in src/lib.rt" a "$(program 'a (one)' src/lib.rt u8)"
says 1 "there is no pair" a '# a (one): nothing'
says 1 "is not '# NAME (FUNCTION, FUNCTION): what it does'" a "$(program 'one' src/lib.rt '+ 10')"
says 1 "stands before the first line" a 'file: src/lib.rt'
says 1 "there is no wrong program" a ''

PYTHONPATH=tools python3 -B tests/proofs/edits.py || bad=1
exit "$bad"
