# The comparison over so many calls of each part, at 100 calls a seed: sh verification/compare/run.sh CALLS [FIRST_SEED]
set -u
case $1 in
'' | 0* | *[!0-9]* | ??????????*)
    echo "N=$1: the number of calls is a whole number from 1 to 999999999, as N=200000" >&2
    exit 2
    ;;
esac
. verification/compare/build.sh
find_compiler && build_library && build_comparison || exit 1
status=0
for part in $parts; do
    echo "comparing the library with the model over $1 calls: $part" >&2
    $run "$(comparison_of "$part")" $((($1 + 99) / 100)) ${2:+"$2"} || status=1
done
exit $status
