# How C is compiled and run beside the library, whose archive is x86-64 code: plainly on such a machine, elsewhere by a cross
# compiler and an emulator. To be sourced in the repository's root; sets `cc`, `run`, `library` and `boundary`.
. tools/shared/kit.sh
flags="-std=c11 -O2 -Wall -Wextra -Wpedantic -Werror -Iinclude"
library=target/staticlib/libbhorelmu.a
boundary="c_mspm0 c_am13e230x" # the crates that have the functions for C, one a part; each is an object of its own

if [ "$(uname -m)" = x86_64 ]; then
    cc="gcc $flags"
    ar=ar
    run=
else
    cc="x86_64-linux-gnu-gcc -static $flags"
    ar=x86_64-linux-gnu-ar
    run=qemu-x86_64
fi

# What a machine of another kind needs to compile and run x86-64 code.
find_compiler() {
    if [ -z "$run" ] || { command -v x86_64-linux-gnu-gcc && command -v qemu-x86_64; } >/dev/null; then
        return 0
    fi
    apt-get update >/dev/null && apt-get install -y gcc-x86-64-linux-gnu libc6-dev-amd64-cross qemu-user >/dev/null
}

# Proves and compiles one crate of the boundary: target/staticlib/CRATE.o, and beside it CRATE.bc, the module that it was made of.
compile_crate() { # CRATE
    echo "proving and compiling $1; what the prover says goes to target/staticlib/$1.log" >&2
    tools/prover.py build "$1"
}

is_library_current() {
    for crate in $boundary; do
        tools/is_current.sh "target/staticlib/$crate.bc" || return 1
    done
    tools/is_current.sh "$library"
}

# The library, unless it is made of the crates as they stand.
build_library() {
    is_library_current && return 0
    mkdir -p target
    find_compiler || return 1
    objects=
    for crate in $boundary; do
        compile_crate "$crate" || return 1
        objects="$objects target/staticlib/$crate.o"
    done
    rm -f "$library"
    $ar rcs "$library" $objects
}
