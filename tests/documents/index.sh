# docs/INDEX.md is what documents 01 and 02 and the quotations in the crates give, and every quotation of theirs has its words. The
# documents are no part of the repository: SCOPE and REQUESTS name their files, and where one is not at hand nothing is compared. What the
# tool does is tried on a small case.
set -u
. tests/shared/complaints.sh
root=$(pwd)
work=$(mktemp -d) || exit 1
trap 'rm -rf "$work"' EXIT
mkdir -p "$work/crates/one/specs" "$work/crates/one/src"
cat >"$work/document" <<'TEXT'
# Rules

## First part (*ours*)

A packet has **two** bytes. Others get no reply. It never wraps.

| no. | when |
|---|---|
| 1 | the fuse is set |

## Second part

Others get no reply. Nobody quotes this one, which is long.
TEXT
cat >"$work/requests" <<'TEXT'
**T-01 One more.** A packet has three bytes. Nobody knows why.

**T-02 Another.** Never built.
TEXT
cat >"$work/crates/one/specs/Rules.antt" <<'CODE'
-- 01, Second part.
use Prim

-- "Others get no reply."
abbrev pub silent : N
silent = 0

-- 01, First part: "A packet has .. bytes"; "1 the fuse is set"
unfoldable pub sized : N
sized = 2

-- 004 says "Others get no reply."
pub other : N

-- 01: "It never wraps."; T-01: "three bytes"
pub third : N

-- T-01: "three bytes"
abbrev pub numbers : N
numbers = record {
  -- "A packet has"
  count = 3;
}
CODE

cat >"$work/crates/one/src/lib.rt" <<'CODE'
// 01, First part.

pub trait Packets {
    // "It never wraps."
    fn size() -> usize;
}

// "A packet has"
static SIZES: [u8; 2] = [2, 2];

impl<'a> From<u8> for Packet<'a> {
    // "the fuse is set"
    ghost from_gives = { Set };
}
CODE

# In the small case the index has this ROW.
has() { # ROW
    grep -qxF -- "$1" "$work/index" || complain "the index has not: $1"
}

(cd "$work" && python3 -B "$root/tools/make_index.py" document requests index) || complain "make_index.py: status $?"
has 'Of 6 sentences of document 01 4 are quoted; the others are marked "not quoted".'
has '| 1.1 | "A packet has two bytes." | `sized` (`crates/one/specs/Rules.antt`); `SIZES` (`crates/one/src/lib.rt`) |'
has '| 1.2 | "Others get no reply." | not quoted |'
has '| 1.3 | "It never wraps." | `third` (`crates/one/specs/Rules.antt`); `size` (`crates/one/src/lib.rt`) |'
has '| 1.4 | "1 the fuse is set" | `sized` (`crates/one/specs/Rules.antt`); `Packet` (`crates/one/src/lib.rt`) |'
has '| 2.1 | "Others get no reply." | `silent` (`crates/one/specs/Rules.antt`) |'
has '| 2.2 | "Nobody quotes this one, which is .." | not quoted |'
has '| T-01.1 | "A packet has three bytes." | `third`, `numbers` (`crates/one/specs/Rules.antt`) |'
has '| T-01.2 | "Nobody knows why." | not quoted |'
grep -q 'T-02' "$work/index" && complain "the index has a request that nobody quotes"
(cd "$work" && python3 -B "$root/tools/make_index.py" --check document requests index) || complain "an index just made is not current"
for false in '01: "Others get a reply."' 'T-01: "A packet has two bytes."' 'T-03: "One more"'; do
    echo "-- $false" >"$work/crates/one/specs/False.antt"
    (cd "$work" && python3 -B "$root/tools/make_index.py" document requests index) | grep -qF "does not say ${false#*: }" ||
        complain "a false quotation is not told: $false"
done
python3 -B tools/make_index.py "$work/missing" "$work/requests" "$work/index" 2>&1 | grep -q 'SCOPE= names the file of document 01' ||
    complain "a missing document is not told"

rules=${SCOPE:-../shared/documents/01-scope.md}
requests=${REQUESTS:-../shared/documents/02-change-requests.md}
if [ -f "$rules" ] && [ -f "$requests" ]; then
    python3 -B tools/make_index.py --check "$rules" "$requests" docs/INDEX.md || bad=1
else
    echo "docs/INDEX.md is not compared: documents 01 and 02 are not at hand; SCOPE= and REQUESTS= name their files"
fi
exit "$bad"
