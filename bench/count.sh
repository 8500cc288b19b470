#!/bin/sh
# Counts the instructions of every call of the bench and prints them: ours, the model's by gcc and by clang, and both ratios.
#
#     sh bench/count.sh             the library as it is shipped
#     sh bench/count.sh OBJECT..    other objects or archives with the functions of bhorelmu.h, such as a trial's
set -eu
cd "$(dirname "$0")/.."
work=target/bench/counted
mkdir -p $work
. tools/shared/toolchain.sh
. bench/building/programs.sh
find_compiler
if [ $# -eq 0 ]; then
    build_library
    set -- "$library"
fi
build_calls x86_64 $work "$@"
for program in calls calls_am13e230x; do
    qemu-x86_64 $work/$program agree
    python3 -B bench/count.py $work/$program
done | python3 -B bench/counted.py
