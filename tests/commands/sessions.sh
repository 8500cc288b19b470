# Sessions through the built runners. Each NAME.txt below tests/sessions is made into a script, and what the runner prints of it, for those in
# am13e230x the runner of that part, is held to NAME.expected; a byte less or more breaks its form. Then scripts that break the form in one way
# each. Run after `rt ci`.
set -u
. tests/shared/complaints.sh
seen=0
work=$(mktemp -d) || exit 1
trap 'rm -rf "$work"' EXIT

# The script in FILE prints what EXPECTED has, and playing it ends with 0, or with 1 where the script breaks the form.
prints() { # WHAT FILE EXPECTED
    wanted=0
    [ "$3" != "$work/refusal" ] || wanted=1
    tools/sessions/run_script.sh "$2" "$part" >"$work/printed"
    status=$?
    [ "$status" -eq "$wanted" ] || complain "$1: status $status"
    cmp "$work/printed" "$3" || complain "$1: not what is expected"
}

for runner in runner runner_am13e230x; do
    tools/is_current.sh "crates/$runner/out/$runner" || tools/progress.py program "$runner" >"$work/log" 2>&1 || {
        cat "$work/log"
        exit 1
    }
done
echo 'bad script' >"$work/refusal"

for text in tests/sessions/*/*.txt; do
    part=mspm0
    case $text in tests/sessions/am13e230x/*) part=am13e230x ;; esac
    name=$(basename "$text" .txt)
    script=$work/$name
    tools/sessions/make_script.py "$text" "$script" || complain "$name: no script"
    size=$(wc -c <"$script")
    seen=$((seen + 1))
    prints "$name" "$script" "${text%.txt}.expected"
    head -c $((size - 1)) "$script" >"$work/less"
    prints "$name without its last byte" "$work/less" "$work/refusal"
    { cat "$script" && printf '\0'; } >"$work/more"
    prints "$name and a byte" "$work/more" "$work/refusal"
done
[ "$seen" -eq "$(ls tests/sessions/*/*.expected | wc -l)" ] || complain "a session has no text, or none was played"

part=mspm0

# What document 01 prints in full is the crate's own input and output, and so is the first session of the other part.
cmp "$work/example" crates/runner/stdin || complain "the example is not the crate's input"
cmp tests/sessions/commands/example.expected crates/runner/stdout || complain "the example is not the crate's output"
cmp "$work/larger_session" crates/runner_am13e230x/stdin || complain "the first session is not the crate's input"
cmp tests/sessions/am13e230x/larger_session.expected crates/runner_am13e230x/stdout || complain "the first session is not the crate's output"

# A script that comes in pieces is read to its end.
{ head -c 11 "$work/example" && sleep 0.1 && tail -c +12 "$work/example"; } |
    tools/sessions/run_script.sh /dev/stdin >"$work/printed"
cmp "$work/printed" tests/sessions/commands/example.expected || complain "a script in pieces: not what is expected"

# The command plays a text whose name has a space, and prints nothing else on standard output. The runner is built, so its `rt run` is left
# out: it would be proved once more, since `rt run` takes nothing that `rt ci` has proved.
cp tests/sessions/commands/example.txt "$work/two words.txt"
mkdir "$work/bin"
printf '#!/bin/sh\n[ "$1" = run ] || exec "%s" "$@"\n' "$(command -v rt)" >"$work/bin/rt"
chmod +x "$work/bin/rt"
PATH="$work/bin:$PATH" make -s run SCRIPT="$work/two words.txt" >"$work/printed" 2>"$work/log" || complain "make run: status $?: $(cat "$work/log")"
cmp "$work/printed" tests/sessions/commands/example.expected || complain "make run of a name with a space: not what is expected"
PATH="$work/bin:$PATH" make -s run PART=am13e230x SCRIPT=tests/sessions/am13e230x/larger_session.txt >"$work/printed" 2>"$work/log" ||
    complain "make run PART=am13e230x: status $?: $(cat "$work/log")"
cmp "$work/printed" tests/sessions/am13e230x/larger_session.expected || complain "make run PART=am13e230x: not what is expected"

# FRONT (printf's escapes) and so many zeros break the form.
breaks() { # WHAT FRONT ZEROS
    { printf "$2" && head -c "$3" /dev/zero; } >"$work/broken"
    prints "$1" "$work/broken" "$work/refusal"
}

breaks 'no byte' '' 0
breaks 'half a count' '\001' 0
breaks 'count 0' '\000\000' 0
breaks 'count 0 and an entry' '\000\000' 6
breaks 'one entry, none there' '\001\000' 0
breaks 'one entry without its last byte' '\001\000' 5
breaks 'two entries, one there' '\002\000' 6
breaks '65 entries' '\101\000' 390
breaks '257 entries, one there' '\001\001' 6
breaks '65,535 entries' '\377\377' 65534
breaks 'a packet of two bytes, one there' '\001\000\000\000\000\000\002\000' 1
breaks 'a packet of two bytes, three there' '\001\000\000\000\000\000\002\000' 3
breaks 'a packet of 257 bytes, one there' '\001\000\000\000\000\000\001\001' 1
breaks '65,537 bytes' '\001\000\000\000\000\000\371\377' 65529
breaks '131,084 bytes' '\002\000\000\000\000\000\377\377\000\000\000\000\377\377' 131070
exit "$bad"
