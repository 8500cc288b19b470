#!/bin/sh
# Builds the library for C and places it, its header and its .pc file below PREFIX:
#
#     tools/install.sh PREFIX [DESTDIR]
#
# A PREFIX that does not begin with / counts from the current folder; it may have spaces. The .pc file names PREFIX; DESTDIR, where it is
# given, stands before every place that is written, for making a package. What is wrong is told before anything is proved: status 2.
set -u
case ${1:-} in -h | --help) exec sed -n '2,/^[^#]/s/^# \{0,1\}//p' "$0" ;; esac
refuse() { # WHAT
    echo "PREFIX=${prefix}: $1" >&2
    exit 2
}

prefix=${1:-}
case $prefix in
'') refuse "no place is named; give one, as PREFIX=/usr/local" ;;
'~'*) refuse "the shell has left the ~ as it is; write the folder out, as PREFIX=\$HOME/bhorelmu" ;;
*[\"\\\$\`]*) refuse "a place whose name has a quotation mark, a backslash, a dollar or a backquote is not taken; name another" ;;
/*) ;;
*) prefix=$(pwd)/$prefix ;;
esac
place=${2:-}$prefix
cd "$(dirname "$0")/.." || exit 2
mkdir -p "$place/lib/pkgconfig" "$place/include" && [ -w "$place/lib" ] && [ -w "$place/lib/pkgconfig" ] && [ -w "$place/include" ] ||
    refuse "nothing can be written to $place; name a place of your own, or run this as who may"

. tools/shared/toolchain.sh && build_library || exit 1
named=$(printf '%s\n' "$prefix" | sed 's/[&|]/\\&/g')
install -m 644 "$library" "$place/lib/libbhorelmu.a" &&
    install -m 644 include/bhorelmu.h "$place/include/bhorelmu.h" &&
    sed "s|@PREFIX@|$named|; s|@VERSION@|$(cat VERSION)|" include/bhorelmu.pc.in >"$place/lib/pkgconfig/bhorelmu.pc" &&
    echo "$place has lib/libbhorelmu.a, include/bhorelmu.h and lib/pkgconfig/bhorelmu.pc"
