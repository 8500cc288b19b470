# The library beside an independent model in C: 200,000 calls from fixed seeds, every area compared after every call, and every
# case that can arise seen. A run of fewer calls says that it does not show the last. Run after `rt ci`.
set -u
sh verification/compare/run.sh 200000 || exit 1
sh verification/compare/run.sh 1 | grep -q 'fewer than 200000 calls: this run does not show that every case was seen' || {
    echo "a run of one call does not say that it has not seen every case"
    exit 1
}
