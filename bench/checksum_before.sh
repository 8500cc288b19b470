#!/bin/sh
# Times the checksum of another commit by the program that times today's: a line for each length, with its nanoseconds, those of the
# table of 256 entries and those of zlib. Proves that commit's checksum first, which takes some minutes; so the commit is one of today's toolchain. Its
# copy stands outside of the repository, where `rt ci` takes no other crate.
#
#     sh bench/checksum_before.sh COMMIT
set -eu
cd "$(dirname "$0")/.."
case ${1:-} in
-h | --help) exec sed -n '2,/^[^#]/s/^# \{0,1\}//p' bench/checksum_before.sh ;;
esac
git rev-parse --verify --quiet "${1:-}^{commit}" >/dev/null || {
    echo "usage: sh bench/checksum_before.sh COMMIT, a commit of this repository" >&2
    exit 2
}
. tools/shared/toolchain.sh
. bench/building/export_checksum.sh
. bench/building/programs.sh
before=$(mktemp -d)
trap 'rm -rf "$before"' EXIT
git archive "$1" crates crates.txt | tar x -C "$before"
cp -R bench tools "$before/"
(
    cd "$before"
    mkdir -p target/bench
    export_checksum
    compile_natively "$exported_module" target/bench/export.o
)
build_checksums "$(uname -m)" "$before" "$before/target/bench/export.o" -lz
"$before/checksums" time
