#!/bin/sh
# Tells what is wrong with a file that is to be played, before anything is proved: status 2 then, and else 0.
#
#     tools/sessions/look_at_script.sh FILE [PART]
#
# FILE is a script, or, where its name ends in .txt, the text of one (tools/sessions/make_script.py). A text under another name would
# be taken for a script, and the runner would say no more than "bad script".
set -u
case ${1:-} in -h | --help) exec sed -n '2,/^[^#]/s/^# \{0,1\}//p' "$0" ;; esac
refuse() { # WHAT
    echo "SCRIPT=${file}: $1" >&2
    exit 2
}

case ${2-mspm0} in
mspm0 | am13e230x) ;;
*)
    echo "PART=$2: no such part; there are mspm0, which it is without PART=, and am13e230x" >&2
    exit 2
    ;;
esac
file=${1:-}
[ -n "$file" ] || refuse "no file is named; give one, as SCRIPT=tests/sessions/commands/flash.txt, or leave SCRIPT= out"
[ -e "$file" ] || refuse "there is no such file; a path counts from the folder that make runs in"
[ -f "$file" ] || refuse "this is a folder or a device, and no file; store the script in a file"
[ -r "$file" ] || refuse "this file cannot be read; look at its permissions"

without_zeros=$(LC_ALL=C tr -d '\000' <"$file" | wc -c)
whole=$(wc -c <"$file")
case $file in
*.txt)
    [ "$whole" -eq "$without_zeros" ] || refuse "this is no text, and its name ends in .txt; give a script a name without .txt"
    "$(dirname "$0")/make_script.py" "$file" /dev/null || exit 2
    ;;
*)
    [ "$whole" -ne "$without_zeros" ] || refuse "this is no script; if it is the text of one, give it a name that ends in .txt"
    ;;
esac
