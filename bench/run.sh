#!/bin/sh
# Measures the library beside the model in C, the checksum beside its rivals, and the stack, and rewrites the tables of docs/BENCH.md
# and docs/bench.svg. `make bench` runs it. Instructions are counted by the emulator; times are this machine's, and decide nothing.
# Wants Debian and python3, and installs what else it needs. What it makes stands below target/bench/.
set -eu
cd "$(dirname "$0")/.."
work=target/bench
counted=$work/counted
timed=$counted

say() { echo "bench: $*"; }

find_emulator() {
    command -v qemu-x86_64 >/dev/null || { apt-get update && apt-get install -y qemu-user; } >/dev/null 2>&1 || {
        say "needs qemu-x86_64 (Debian: qemu-user), and could not install it" >&2
        return 1
    }
}

# What is timed where the processor is another: the same modules, compiled for it.
build_timed() {
    timed=$work/timed
    mkdir -p $timed
    for crate in $boundary; do
        compile_natively "target/staticlib/$crate.bc" "$timed/$crate.o"
    done
    compile_natively "$exported_module" $timed/export.o
    build_calls "$(uname -m)" $timed $(printf "$timed/%s.o " $boundary)
    build_checksums "$(uname -m)" $timed $timed/export.o "$native_zlib"
}

agree() { # FOLDER EMULATOR
    for program in calls calls_am13e230x checksums; do
        $2 "$1/$program" agree || {
            say "$program: the sides do not agree, so nothing is measured" >&2
            exit 1
        }
    done
}

machine() {
    printf 'processor\t%s\n' "$(lscpu | sed -n 's/^Model name: *//p' | head -n 1)"
    printf 'machine\t%s\n' "$(uname -m)"
    printf 'processors\t%s\n' "$(nproc)"
    printf 'gcc\t%s\n' "$(x86_64-linux-gnu-gcc -dumpfullversion)"
    printf 'clang\t%s\n' "$($clang --version | sed -n '1s/.*version \([0-9.]*\).*/\1/p')"
    printf 'zlib\t%s\n' "$($timed/checksums zlib)"
    printf 'qemu\t%s\n' "$(qemu-x86_64 --version | sed -n '1s/.*version \([0-9.]*\).*/\1/p')"
}

mkdir -p $counted
. tools/shared/toolchain.sh
. bench/building/export_checksum.sh
. bench/building/programs.sh
. bench/building/zlib.sh
say "looking for the compilers, the emulator and zlib"
find_compiler
find_emulator
find_zlib
say "building; the library and the checksum are proved first where they are not there, which takes minutes"
build_library
export_checksum
build_calls x86_64 $counted "$library"
build_checksums x86_64 $counted "$exported" "$zlib"
[ "$(uname -m)" = x86_64 ] || build_timed
say "comparing the sides"
agree $counted qemu-x86_64
agree $timed ""
say "counting instructions, some 15 seconds"
python3 -B bench/count.py $counted/calls >$work/calls.counts
python3 -B bench/count.py $counted/calls_am13e230x >>$work/calls.counts
python3 -B bench/count.py $counted/calls places >$work/places.counts
python3 -B bench/count.py $counted/checksums >$work/checksums.counts
say "timing, some 30 seconds"
$timed/calls time >$work/calls.times
$timed/calls_am13e230x time >>$work/calls.times
$timed/checksums time >$work/checksums.times
machine >$work/machine.tsv
say "reading the stack off the code"
status=0
sh stack/run.sh >$work/stack.log || {
    cat $work/stack.log >&2
    status=1
}
python3 -B bench/report.py || status=1
exit $status
