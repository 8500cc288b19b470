# The Rattle toolchain's own compiler. To be sourced in the repository's root; sets `kit` and `clang`.
kit=$(dirname "$(rt doc)")
clang=$kit/toolchain/bin/clang

# The folders of headers that a gcc has, as words for clang.
headers_of() { # GCC
    $1 -E -v -x c /dev/null 2>&1 >/dev/null | sed -n '/^#include </,/^End/s/^ \//-isystem \//p' | tr '\n' ' '
}

# The text of an LLVM module.
module_text() { # MODULE.bc OUT.ll
    $clang --target=x86_64-unknown-linux-gnu --no-default-config -S -emit-llvm -O0 -Xclang -disable-llvm-passes -x ir "$1" -o "$2"
}
