# The law of "one answer" of each public function says what the function's contract says, and docs/PROMISES.md names both. That the test
# finds what is wrong, and reads each form of a head, is tried on a small case.
set -u
. tests/shared/complaints.sh
root=$(pwd)
work=$(mktemp -d) || exit 1
trap 'rm -rf "$work"' EXIT
mkdir -p "$work/crates/low/src" "$work/crates/claims/proofs/Answers" "$work/crates/program_io/src" "$work/docs"
printf 'pub fn read_full(area: &mut [u8])\n    ensures { length area.new ≡ length area.old }\n{\n}\n' >"$work/crates/program_io/src/lib.rt"

# Of a function NAME of this CODE, whose paragraph says that it is equal to EQUAL and has the LAW, the test ends with STATUS and says WORDS.
says() { # STATUS WORDS NAME EQUAL LAW CODE
    printf 'ghost use Rattle.std.specs.Prelude.{◌≡◌};\n\n%s\n' "$6" >"$work/crates/low/src/lib.rt"
    printf 'use Rattle.std.specs.Prelude.{◌≡◌}\n\n%s\n' "${5:+pub law : $5}" >"$work/crates/claims/proofs/Answers/Promises.antt"
    printf '## `program_io`\n\n**`read_full`** Reads.\n\n## `low`\n\n**`%s`** Tells.  \nEqual to %s.%s\n' "$3" "$4" "${5:+ One answer: \`law\`.}" >"$work/docs/PROMISES.md"
    said=$(cd "$work" && PYTHONPATH="$root/tools:$root/tests/documents" python3 -B "$root/tests/proofs/promises.py")
    status=$?
    [ "$status" -eq "$1" ] || complain "$6 and $5: status $status, and says: $said"
    case $said in *"$2"*) ;; *) complain "$6 and $5: does not say '$2', but: $said" ;; esac
}

# A function with this HEAD and PROMISE.
code() { # HEAD PROMISE
    printf '%s\n    ensures { %s }\n{\n    1\n}\n' "$1" "$2"
}
size_of='`size_of`'

plain=$(code 'pub fn f(a: u8, bytes: &[u8]) -> usize' 'result ≡ size_of a bytes.now')
says 0 '' f "$size_of" '(a : ℕ) (bytes : List ℕ) → OneAnswer (λ r. r ≡ size_of a bytes)' "$plain"
says 1 'law has the promise' f "$size_of" '(a : ℕ) (bytes : List ℕ) → OneAnswer (λ r. r ≡ size_of bytes a)' "$plain"
says 1 'law has the parameters' f "$size_of" '(bytes : List ℕ) (a : ℕ) → OneAnswer (λ r. r ≡ size_of a bytes)' "$plain"
says 1 'it is equal to length_of, and its contract does not' f '`length_of`' '(a : ℕ) (bytes : List ℕ) → OneAnswer (λ r. r ≡ size_of a bytes)' "$plain"

# a const parameter, and arrays
array=$(code "pub fn f<'a, const N: usize>(bytes: &'a [u8; 4]) -> [u8; N]" 'result ≡ size_of N bytes.now')
says 0 '' f "$size_of" '(N : ℕ) (bytes : List ℕ) → OneAnswer (λ r. r ≡ size_of N bytes)' "$array"
says 1 'law has the parameters' f "$size_of" '(bytes : List ℕ) → OneAnswer (λ r. r ≡ size_of N bytes)' "$array"

# types with arguments
result=$(code 'pub fn f(area: &mut [u8; 4], held: Held<8>) -> Result<(), Error>' 'left (size_told result) area.new ≡ size_of held.entry area.old')
says 0 '' f "$size_of" '(area : List ℕ) (held : Held 8) → OneAnswer {A = Result Unit Error × List ℕ} (λ r. left (size_told r.0) r.1 ≡ size_of held area)' "$result"
says 1 'law has the answer_type' f "$size_of" '(area : List ℕ) (held : Held 8) → OneAnswer {A = Result Unit Other × List ℕ} (λ r. left (size_told r.0) r.1 ≡ size_of held area)' "$result"

# a trait, and a type parameter that has it
trait='pub trait Layout {
    ghost layout: { Shape };

    fn f() -> usize
        ensures { result ≡ size_of layout };
}'
says 0 '' Layout::f "$size_of" '(layout : Shape) → OneAnswer (λ r. r ≡ size_of layout)' "$trait"
says 1 'law has the parameters' Layout::f "$size_of" 'OneAnswer (λ r. r ≡ size_of layout)' "$trait"
hidden=$(printf '%s' "$trait" | sed 's/^pub //')
bound=$(printf '%s\n\n%s' "$hidden" "$(code 'pub fn f<L: Layout>(image: &[u8]) -> bool' 'result ≡ size_of L.layout image.now')")
says 0 '' f "$size_of" '(layout : Shape) (image : List ℕ) → OneAnswer (λ r. r ≡ size_of layout image)' "$bound"
says 1 'law has the parameters' f "$size_of" '(layout : Other) (image : List ℕ) → OneAnswer (λ r. r ≡ size_of layout image)' "$bound"

# a method
method="impl<'a> Areas<'a> {
    pub fn f(self, at: usize) -> &'a [u8]
        ensures { result.now ≡ size_of at (areas_in self.entry) }
    {
        self.main
    }
}"
says 0 '' Areas::f "$size_of" '(self : Areas) (at : ℕ) → OneAnswer (λ r. r ≡ size_of at (areas_in self))' "$method"
says 1 'law has the parameters' Areas::f "$size_of" '(self : Sites) (at : ℕ) → OneAnswer (λ r. r ≡ size_of at (areas_in self))' "$method"

# traits of the toolchain: a relation has a law, and what is itself a function has none
from='impl From<Reason> for Error {
    ghost from_gives = { λ reason error. error ≡ size_of reason };

    fn from(reason: Reason) -> Error {
        Error::Low(reason)
    }
}'
says 0 '' Error::from "$size_of" '(reason : Reason) → OneAnswer (λ r. r ≡ size_of reason)' "$from"
says 1 'law has the promise' Error::from "$size_of" '(reason : Reason) → OneAnswer (λ r. r ≡ least reason)' "$from"
named=$(printf '%s' "$from" | sed 's/{ λ .* }/{ Decodes size_of }/')
says 1 'law has the promise' Error::from "$size_of" '(reason : Reason) → OneAnswer (λ r. r ≡ size_of reason)' "$named"
display='impl fmt::Display for Line {
    ghost output = { λ line. Some (size_of line) };

    fn fmt(&self, f: &mut fmt::Formatter) -> fmt::Result {
        Ok(())
    }
}'
says 0 '' Line::fmt "$size_of" '' "$display"
says 1 'it is equal to least, and its contract does not' Line::fmt '`least`' '' "$display"
says 1 'it has a law' Line::fmt "$size_of" 'OneAnswer (λ r. r ≡ size_of r)' "$display"
says 1 'low has no public function f' f "$size_of" 'OneAnswer (λ r. r ≡ size_of r)' "$display"

PYTHONPATH=tools:tests/documents python3 -B tests/proofs/promises.py || bad=1
exit "$bad"
