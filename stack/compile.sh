# Compiles the modules of the proved crates for a thumbv6m core. To be sourced in the repository's root, after tools/shared/toolchain.sh.
#
# The words are those that the toolchain calls clang with for x86-64, but for the core and -O2.
core="--target=thumbv6m-none-eabi -mcpu=cortex-m0plus -ffunction-sections -fdata-sections -mllvm -trap-unreachable \
-mllvm -no-trap-after-noreturn --no-default-config -Wno-override-module -Werror"
code=$(printf 'target/stack/%s.s ' $boundary)

# target/stack/CRATE.s, and beside it CRATE.su, the frames.
compile_for_core() { # CRATE
    module=target/stack/$1
    module_text "target/staticlib/$1.bc" "$module.x86_64.ll" &&
        python3 -B stack/retarget.py "$module.x86_64.ll" "$module.ll" &&
        $clang $core -O2 -fstack-usage -S -x ir "$module.ll" -o "$module.s"
}

compile_for_stack() {
    mkdir -p target/stack
    for crate in $boundary; do
        compile_for_core "$crate" || return 1
    done
}
