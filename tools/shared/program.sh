# Runs a program that `rt run` or `rt ci` built. It is for x86-64, and another machine runs it by an emulator. To be sourced.
run_program() { # ROOT NAME
    emulator=
    [ "$(uname -m)" = x86_64 ] || emulator="qemu-x86_64 -L $(dirname "$(rt doc)")/toolchain"
    $emulator "$1/crates/$2/out/$2"
}
