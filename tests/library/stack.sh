# No function of the boundary takes more stack than stack/numbers.txt tells, on x86-64 and on a thumbv6m core, and the header and
# docs/RECORD.md tell the same. What has no number of bytes is refused. Run after `rt ci`.
set -u
. tests/shared/complaints.sh
. tools/shared/toolchain.sh
. stack/compile.sh
find_compiler && build_library && compile_for_stack || exit 1
work=$(mktemp -d) || exit 1
trap 'rm -rf "$work"' EXIT

python3 -B stack/judge.py stack/numbers.txt "$library" $code || bad=1

# The judge can fail: a byte less is told than is taken.
awk '$1 == "bhorelmu_call" { $2 -= 1 } { print }' stack/numbers.txt >"$work/numbers"
python3 -B stack/judge.py "$work/numbers" "$library" $code >"$work/said" && complain "a call that takes more than is told passes"
grep -q 'x86-64: bhorelmu_call takes' "$work/said" || complain "the judge does not name the call: $(cat "$work/said")"

# A program in C, compiled for both, is refused for this reason.
refuses() { # NAME REASON PROGRAM
    printf '%s\n' "$3" >"$work/$1.c"
    x86_64-linux-gnu-gcc -O2 -fPIC -ffunction-sections -c "$work/$1.c" -o "$work/$1.o" || bad=1
    $clang $core -O2 -fstack-usage -S "$work/$1.c" -o "$work/$1.s" || bad=1
    for file in "$work/$1.o" "$work/$1.s"; do
        python3 -B stack/measure.py "$file" >"$work/said" 2>&1 && complain "$file passes"
        grep -q "$2" "$work/said" || complain "$file: another reason: $(cat "$work/said")"
    done
}

refuses recursion 'recursion' 'int f(int); int g(int n) { return n ? f(n - 1) * n : 1; } int f(int n) { return g(n) + n; }'
refuses pointer 'a call by a pointer' 'int f(int (*g)(void)) { return g() + 1; }'
refuses last 'by a pointer' 'int f(int (*g)(void)) { return g(); }'
refuses room 'no fixed size' 'void g(char *); void f(int n) { char room[n]; g(room); }'

# A module in which a pointer is taken as a number is not compiled for a core whose pointers are shorter.
sed '0,/^start:/s//start:\n  %n = ptrtoint ptr %a0 to i64/' target/stack/c_mspm0.x86_64.ll >"$work/wrong.ll"
python3 -B stack/retarget.py "$work/wrong.ll" "$work/out.ll" 2>"$work/said" && complain "a pointer that is taken as a number passes"
grep -q 'ptrtoint' "$work/said" || complain "the module is refused for another reason: $(cat "$work/said")"
exit "$bad"
