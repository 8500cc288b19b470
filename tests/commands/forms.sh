# tools/forms.py counts the places of older forms, here and at a commit. Tried on a small repository.
set -u
. tests/shared/complaints.sh
tool=$(pwd)/tools/forms.py
work=$(mktemp -d) || exit 1
trap 'rm -rf "$work"' EXIT
cd "$work" || exit 1
git init -q . && git config user.name nobody && git config user.email nobody@invalid
mkdir -p crates/one/src crates/one/proofs
cat >crates/one/src/lib.rt <<'CODE'
pub enum Answer {
    Taken,
}

fn first(image: &[u8], at: usize) -> u32
    requires { length image.now ≡ 1024 }
{
    let mut sum = 0;
    while at < image.len() {
        sum += octets::number16_at(image, at) as u32 + 1;
    }
    sum
}

fn second(image: &[u8], at: usize) -> u32
    requires { length image.now ≡ 1024 }
{
    let mut sum = 0;
    while at < image.len() {
        sum += octets::number16_at(image, at) as u32 + 2;
    }
    sum
}

fn third(bytes: &[u8]) -> usize
    requires { length bytes.now ≡ 1024 }
{
    bytes.len()
}
CODE
printf 'pub law : N\nlaw = 1\n' >crates/one/proofs/Laws.antt
git add . && git commit -qm before

# At a commit or here, the tool prints this LINE.
counts() { # LINE [WORD..]
    line=$1
    shift
    python3 -B "$tool" "$@" 2>/dev/null | grep -qxF -- "$line" || complain "forms.py $* does not say: $line"
}

counts '1      1  enums'
counts '2      1  pairs of functions that are alike'
counts '3      2  loops by `while` and `loop`'
counts '4      2  casts with `as`'
counts '5      3  places of facts that three or more `requires` repeat'
counts '8      2  lines of proofs'
counts '           1.00 crates/one/src/lib.rt:5 first ~ crates/one/src/lib.rt:15 second' --list 2
sed -i '/^fn second/,/^}/d; s/pub enum/pub struct/' crates/one/src/lib.rt
counts '1      0  enums'
counts '2      0  pairs of functions that are alike'
counts '3      1  loops by `while` and `loop`'
counts '5      0  places of facts that three or more `requires` repeat'
counts '2      1  pairs of functions that are alike' --commit HEAD 2

# What is used wrongly ends with status 2 and says why.
refuses() { # WORDS [WORD..]
    words=$1
    shift
    python3 -B "$tool" "$@" >/dev/null 2>said
    [ $? -eq 2 ] && grep -q "$words" said || complain "forms.py $*: another status, or it says: $(cat said)"
}
refuses "'nowhere' is no commit" --commit nowhere
refuses "'9' is no point" 9
refuses 'wants a commit' --commit
exit "$bad"
