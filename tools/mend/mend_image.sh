#!/bin/sh
# Mends a settings image with the program that `make mend` builds: prints what it says, and stores the mended image as bytes.
#
#     tools/mend/mend_image.sh IMAGE OUT
#
# 0 where OUT has the mended image, 1 where the image is refused and OUT is left as it was, 2 for wrong use. docs/DEPOT.md says what the
# program cannot see.
set -eu
case ${1:-} in -h | --help) exec sed -n '2,/^[^#]/s/^# \{0,1\}//p' "$0" ;; esac
[ $# -eq 2 ] || {
    echo "usage: tools/mend/mend_image.sh IMAGE OUT" >&2
    exit 2
}
root=$(cd "$(dirname "$0")/../.." && pwd)
. "$root/tools/shared/program.sh"
"$root/tools/mend/look_at_files.sh" "$1" "$2"
[ -f "$root/crates/mend/out/mend" ] || {
    echo "the program is not built; 'make mend' builds it" >&2
    exit 2
}
work=$(mktemp -d)
trap 'rm -rf "$work"' EXIT
run_program "$root" mend <"$1" >"$work/said"
sed '/^image$/,$d' "$work/said"
grep -q '^image$' "$work/said" || {
    echo "OUT=$2: nothing is stored, since IMAGE=$1 is refused; docs/DEPOT.md says what to do then" >&2
    exit 1
}
sed '1,/^image$/d' "$work/said" |
    python3 -c 'import sys; sys.stdout.buffer.write(bytes.fromhex(sys.stdin.read()))' >"$work/image"
[ "$(wc -c <"$work/image")" -eq 1024 ]
cat "$work/image" >"$2"
