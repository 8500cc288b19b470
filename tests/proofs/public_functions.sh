# Every public function of a library has one `ensures`, no `requires`, and two wrong programs of its own. That the test finds what is wrong,
# also with a function of a trait, is tried on a small case.
set -u
. tests/shared/complaints.sh
root=$(pwd)
work=$(mktemp -d) || exit 1
trap 'rm -rf "$work"' EXIT
mkdir -p "$work/crates/low/src" "$work/crates/low/must-fail"

# Each of these functions is broken so often.
broken() { # FUNCTIONS..
    for function in "$@"; do
        printf '# wrong_%s (%s): wrong\nfile: src/lib.rt\nold: 1\nnew: 2\n' "$((number += 1))" "$function"
    done >"$work/crates/low/must-fail/all.edit"
}

# With this CODE the test ends with STATUS and says WORDS.
says() { # STATUS WORDS CODE
    printf '%s\n' "$3" >"$work/crates/low/src/lib.rt"
    said=$(cd "$work" && PYTHONPATH="$root/tools" python3 -B "$root/tests/proofs/public_functions.py")
    status=$?
    [ "$status" -eq "$1" ] || complain "$3: status $status, and says: $said"
    case $said in *"$2"*) ;; *) complain "$3: does not say '$2', but: $said" ;; esac
}

number=0
generic='pub fn first<const N: usize>(bytes: [u8; N]) -> u8
    ensures { result ≡ first_of bytes }
{
    1
}'
trait='pub trait Layout {
    ghost layout: { Shape };

    fn size() -> usize
        ensures { result ≡ size_of layout };

    fn end() -> usize
        ensures { result ≡ end_of layout }
    {
        Self::size()
    }
}

pub struct Small;

impl Layout for Small {
    ghost layout = { small };

    fn size() -> usize {
        1
    }
}'
from='pub enum Error {
    Low(Reason),
}

impl From<Reason> for Error {
    ghost from_gives = { λ reason error. error ≡ Low reason };

    fn from(reason: Reason) -> Error {
        Error::Low(reason)
    }
}'
another='impl From<u8> for Error {
    ghost from_gives = { λ number error. error ≡ low_of number };

    fn from(number: u8) -> Error {
        Error::Low(1)
    }
}'
method='pub struct Areas<'"'"'a> {
    main: &'"'"'a [u8],
}

impl<'"'"'a> Areas<'"'"'a> {
    pub fn size(self) -> usize
        ensures { result ≡ size_in self.entry }
    {
        1
    }
}'
broken first first
says 0 '' "$generic"
says 1 'first has 0 ensures' "$(printf '%s' "$generic" | grep -v ensures)"
broken first
says 1 'first has 1 wrong programs' "$generic"

broken Layout::size Small::size Layout::end Small::end
says 1 'Layout::end has 1 wrong programs' "$trait"
broken Layout::size Small::size Layout::end Layout::end
says 0 '' "$trait"
says 1 'Layout::end has a requires' "$(printf '%s' "$trait" | sed 's/        ensures { result ≡ end_of/        requires { 1 ≤ size_of layout }\n&/')"
says 1 'Layout::size has 0 ensures' "$(printf '%s' "$trait" | sed 's/^    fn size() -> usize$/&;/; /ensures.*size_of/d')"
broken Small::size Small::size Layout::end Layout::end
says 0 '' "$trait"
broken Layout::size Large::size Layout::end Layout::end
says 1 'Layout::size has 1 wrong programs' "$trait"
broken first
says 0 '' "$(printf '%s' "$trait" | sed 's/pub trait/pub(crate) trait/')"

broken Error::from
says 1 'Error::from has 1 wrong programs' "$from"
says 0 '' "$(printf '%s' "$from" | sed 's/pub enum/enum/')"
says 0 '' "$(printf '%s\n\nstruct Reason;' "$from")"
broken Error::from Error::from
says 0 '' "$from"
says 1 'Error::from has 0 ensures' "$(printf '%s' "$from" | grep -v ghost)"
says 1 'low has 2 public functions with the name Error::from' "$(printf '%s\n\n%s' "$from" "$another")"

broken Areas::size Areas::size
says 0 '' "$method"
broken size size
says 1 'Areas::size has 0 wrong programs' "$method"

PYTHONPATH=tools python3 -B tests/proofs/public_functions.py || bad=1
exit "$bad"
