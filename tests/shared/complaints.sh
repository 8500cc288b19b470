# To be sourced by a test: it says what is wrong, goes on, and ends with `exit "$bad"`.
bad=0
complain() { # WHAT..
    echo "$*"
    bad=1
}
