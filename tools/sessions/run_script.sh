#!/bin/sh
# Plays a session with a runner that is built, and prints what the board answers.
#
#     tools/sessions/run_script.sh FILE [PART]
#
# FILE is a script, or, where its name ends in .txt, the text of one (tools/sessions/make_script.py). PART is that of the board: mspm0, which it
# is where none is named (the crate runner), or am13e230x (the crate runner_am13e230x).
set -eu
case ${1:-} in -h | --help) exec sed -n '2,/^[^#]/s/^# \{0,1\}//p' "$0" ;; esac
usage() {
    echo "usage: tools/sessions/run_script.sh FILE [mspm0 | am13e230x]" >&2
    exit 2
}
[ $# -eq 1 ] || [ $# -eq 2 ] || usage
case ${2-mspm0} in
mspm0) runner=runner ;;
am13e230x) runner=runner_am13e230x ;;
*) usage ;;
esac
root=$(cd "$(dirname "$0")/../.." && pwd)
. "$root/tools/shared/program.sh"
[ -f "$root/crates/$runner/out/$runner" ] || {
    echo "$runner is not built; 'make run PART=${2-mspm0}' builds it" >&2
    exit 2
}
script=$1
case $script in
*.txt)
    script=$(mktemp)
    trap 'rm -f "$script"' EXIT
    "$root/tools/sessions/make_script.py" "$1" "$script"
    ;;
esac
run_program "$root" "$runner" <"$script" | {
    IFS= read -r first && printf '%s\n' "$first" && cat
    [ "$first" != "bad script" ] || exit 1
}
