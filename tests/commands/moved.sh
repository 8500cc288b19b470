# tools/moved.py tells what has moved since a commit, and nothing else. Tried on a small repository.
set -u
. tests/shared/complaints.sh
tool=$(pwd)/tools/moved.py
work=$(mktemp -d) || exit 1
trap 'rm -rf "$work"' EXIT
cd "$work" || exit 1
git init -q . && git config user.name nobody && git config user.email nobody@invalid
mkdir -p crates/one/specs crates/one/proofs crates/one/src crates/one/must-fail
cat >crates/one/specs/Rules.antt <<'CODE'
-- What is said before.
pub record Pair : Type 0 where
  pub left : N
  pub right : N

unfoldable pub stays : N
stays = 1

abbrev pub other : N
other = 2

module _ (a : N) where
  pub gone : N
  gone = a
CODE
cat >crates/one/src/lib.rt <<'CODE'
pub const SIZE: usize = 3;

pub fn kept(a: u8) -> u8
    ensures { λ r. ⌜ r ≡ a ⌝ }
{
    a
}
CODE
echo "proof" >crates/one/proofs/Laws.antt
printf '# wrong (kept): 1 more\nfile: src/lib.rt\nold: a\nnew: a + 1\n' >crates/one/must-fail/wrong.edit
git add . && git commit -qm before

told=$(python3 -B "$tool" HEAD)
[ "$(printf '%s\n' "$told" | grep -c ': 0 new, 0 changed, 0 gone, [1-9]')" = 4 ] || complain "nothing has moved, and it tells: $told"

sed -i 's/What is said before/What is said now/; s/other = 2/other = 4/; /^module/,$d' crates/one/specs/Rules.antt
echo 'pub added : N' >>crates/one/specs/Rules.antt
sed -i 's/^    a$/    a + 0/' crates/one/src/lib.rt
echo "another" >>crates/one/proofs/Laws.antt
sed -i 's/a + 1/a + 2/' crates/one/must-fail/wrong.edit
cat >expected <<'TEXT'
definitions: 1 new, 1 changed, 1 gone, 3 stayed
  new: `added` of `one`
  changed: `other` of `one`
  gone: `gone` of `one`
contracts: 0 new, 0 changed, 0 gone, 1 stayed
proofs: 0 new, 1 changed, 0 gone, 0 stayed
  changed: `crates/one/proofs/Laws.antt`
wrong programs: 0 new, 1 changed, 0 gone, 0 stayed
  changed: `wrong` of `one`
TEXT
python3 -B "$tool" HEAD | diff expected - || complain "what has moved is told otherwise"
git add . && git commit -qm after
python3 -B "$tool" HEAD~1 HEAD | diff expected - || complain "between two commits it is told otherwise"

# Forms of a source: a static, a trait, and what a type has of one.
cat >crates/one/src/lib.rt <<'CODE'
pub static TABLE: [u8; 2] = [1, 2];

pub trait Layout {
    ghost layout: { Shape };

    fn size() -> usize
        ensures { result ≡ size_of layout };
}

impl From<Reason> for Error {
    ghost from_gives = { λ reason error. error ≡ Low reason };

    fn from(reason: Reason) -> Error {
        Error::Low(reason)
    }
}

pub fn kept<const N: usize>(a: [u8; N]) -> u8
    ensures { result ≡ a }
{
    1
}
CODE
git add . && git commit -qm forms
sed -i 's/\[1, 2\]/[1, 3]/; s/size_of/length_of/; s/Low reason/High reason/; s/Error::Low/Error::High/; s/    1/    2/' crates/one/src/lib.rt
cat >expected <<'TEXT'
definitions: 0 new, 2 changed, 0 gone, 4 stayed
  changed: `TABLE` of `one`
  changed: `Layout` of `one`
contracts: 0 new, 2 changed, 0 gone, 1 stayed
  changed: `Layout::size` of `one`
  changed: `Error::from` of `one`
proofs: 0 new, 0 changed, 0 gone, 1 stayed
wrong programs: 0 new, 0 changed, 0 gone, 1 stayed
TEXT
python3 -B "$tool" HEAD | diff expected - || complain "of a trait and an impl it is told otherwise"

python3 -B "$tool" nowhere >/dev/null 2>said && complain "a commit that is not there is taken"
grep -q "'nowhere' is no commit" said || complain "a commit that is not there is not told: $(cat said)"
python3 -B "$tool" >/dev/null 2>&1
[ $? = 2 ] || complain "no commit is named, and the status is not 2"
exit "$bad"
