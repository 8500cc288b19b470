# The C boundary from C: the checks of each part, also under the sanitizers where the machine has them, and the examples. Run after `rt ci`.
set -u
. tools/shared/toolchain.sh
find_compiler && build_library || exit 1
mkdir -p target/from_c
for checks in checks checks_am13e230x; do
    $cc verification/$checks.c "$library" -o target/from_c/$checks || exit 1
    $run target/from_c/$checks || exit 1
    if [ -z "$run" ] && $cc -fsanitize=address,undefined verification/$checks.c "$library" -o target/from_c/${checks}_sanitized 2>/dev/null; then
        target/from_c/${checks}_sanitized || exit 1
    else
        echo "the $checks under the sanitizers are left out: this machine has none for x86-64"
    fi
done
for example in session session_am13e230x; do
    $cc examples/$example.c "$library" -o target/from_c/$example || exit 1
    $run target/from_c/$example >target/from_c/$example.out || exit 1
    diff examples/$example.expected target/from_c/$example.out || exit 1
done
