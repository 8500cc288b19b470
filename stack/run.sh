#!/bin/sh
# Measures the stack that each function of the library takes, on x86-64 and on a thumbv6m core: prints it, writes the table of
# docs/BENCH.md, and holds it to stack/numbers.txt. `make stack` runs it.
set -eu
cd "$(dirname "$0")/.."
. tools/shared/toolchain.sh
. stack/compile.sh
echo "stack: building; the library is proved first where it is not there"
find_compiler
build_library
compile_for_stack
echo "stack: x86-64, the archive"
python3 -B stack/measure.py "$library"
echo "stack: thumbv6m, -O2"
python3 -B stack/measure.py $code
python3 -B stack/table.py "$library" $code
python3 -B stack/judge.py stack/numbers.txt "$library" $code
