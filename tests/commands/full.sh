# Where nothing more can be written each program ends with status 1, and says why as docs/PORT.md has it. Run after `rt ci`.
set -u
. tests/shared/complaints.sh
. tools/shared/program.sh
work=$(mktemp -d) || exit 1
trap 'rm -rf "$work"' EXIT
printf 'Error: Os { code: 28, kind: StorageFull, message: "No space left on device" }\n' >"$work/wanted"
for program in crates/*/src/main.rt; do
    name=$(basename "${program%/src/main.rt}")
    given=/dev/null
    [ ! -f "crates/$name/stdin" ] || given=crates/$name/stdin
    run_program . "$name" <"$given" >/dev/full 2>"$work/said"
    status=$?
    [ "$status" -eq 1 ] || complain "$name: status $status where the disk is full"
    cmp -s "$work/said" "$work/wanted" || complain "$name: says of a full disk: $(cat "$work/said")"
done
exit "$bad"
