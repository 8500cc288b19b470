# The maker of scripts: what it makes of a text, and that a text that is wrong is refused with its line's number, and nothing written.
set -u
. tests/shared/complaints.sh
work=$(mktemp -d) || exit 1
trap 'rm -rf "$work"' EXIT

# TEXT makes these BYTES (printf's escapes).
makes() { # TEXT BYTES
    printf -- "$1" >"$work/text" || bad=1
    printf -- "$2" >"$work/wanted" || bad=1
    rm -f "$work/script"
    tools/sessions/make_script.py "$work/text" "$work/script" || complain "refuses $1"
    cmp -s "$work/script" "$work/wanted" || complain "makes something else of $1"
}

# TEXT is refused at LINE: status 1, one line that names it, and what stood in the script's place stays.
refuses() { # LINE TEXT
    printf -- "$2" >"$work/text" || bad=1
    echo kept >"$work/script"
    tools/sessions/make_script.py "$work/text" "$work/script" 2>"$work/said"
    [ $? -eq 1 ] || complain "does not refuse $2"
    grep -q "^$work/text: line $1: " "$work/said" || complain "does not name line $1 of $2: $(cat "$work/said")"
    [ "$(wc -l <"$work/said")" -eq 1 ] || complain "says more than a line of $2"
    [ "$(cat "$work/script")" = kept ] || complain "writes a script of $2"
}

connect='\200\001\000\022\072\141\104\336'
makes '0 12' "\001\000\000\000\000\000\010\000$connect"
makes '# Connect\r\n\r\n  0\t12  # now\r\n' "\001\000\000\000\000\000\010\000$connect"
makes '4294967295 -' '\001\000\377\377\377\377\000\000'
makes '67305985 raw 80 aB*3' '\001\000\001\002\003\004\004\000\200\253\253\253'
makes '1 -\n0 raw 05\n2 12\n' "\003\000\001\000\000\000\000\000\000\000\000\000\001\000\002\000\000\000\010\000\005$connect"

refuses 1 ''
refuses 3 '# nothing\n\n'
refuses 1 'x 12'
refuses 1 '-1 12'
refuses 1 '1.5 12'
refuses 1 '0x10 12'
refuses 1 '4294967296 12'
refuses 2 '0 12\n0'
refuses 2 '0 12\n0 raw # no bytes\n0 12'
refuses 3 '0 12\n\n0 1\n0 12\n'
refuses 1 '0 123'
refuses 1 '0 1G'
refuses 1 '0 0x12'
refuses 1 '0 12, 13'
refuses 1 '0 - 12'
refuses 1 '0 12 raw 13'
refuses 1 '0 FF*'
refuses 1 '0 FF*0'
refuses 1 '0 FF*-1'
refuses 1 '0 \303\244'
refuses 1 '0 00*65529'
refuses 1 '0 raw 00*65536'
refuses 1 '0 raw 00*65529'
refuses 3 '0 raw 00*40000\n\n0 raw 00*40000\n'
i=0
while [ $i -lt 65 ]; do
    echo '0 -'
    i=$((i + 1))
done >"$work/many"
refuses 65 "$(cat "$work/many")"
exit "$bad"
