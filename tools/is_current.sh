#!/bin/sh
# Whether a file is made of the crates as they stand: it is there, and nothing of them is newer. To be run in the repository's root.
#
#     tools/is_current.sh FILE
case ${1:-} in -h | --help) exec sed -n '2,/^[^#]/s/^# \{0,1\}//p' "$0" ;; esac
[ $# -eq 1 ] || {
    echo "usage: tools/is_current.sh FILE" >&2
    exit 2
}
[ -f "$1" ] && [ -z "$(find crates crates.txt -path 'crates/*/out' -prune -o -newer "$1" -type f -print | head -n 1)" ]
