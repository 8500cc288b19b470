# docs/PROTOCOL.md and README.md show sessions of tests/sessions/commands and what they print; tests/commands/sessions.sh plays them.
set -u
. tests/shared/complaints.sh

# The DOCUMENT shows the FILE line by line, without its remarks.
shows() { # DOCUMENT FILE
    case $(sed -n 's/^    //p' "$1") in
    *"$(grep -v '^#' "$2")"*) ;;
    *) complain "$1 does not show $2 line by line" ;;
    esac
}

shows docs/PROTOCOL.md tests/sessions/commands/first_session.txt
shows docs/PROTOCOL.md tests/sessions/commands/first_session.expected
shows README.md tests/sessions/commands/example.expected
shows README.md tests/sessions/commands/own_session.txt
shows README.md tests/sessions/commands/own_session.expected
exit "$bad"
