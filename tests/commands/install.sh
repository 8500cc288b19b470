# `make install` places what a C program needs: the example compiles and runs from the installed files alone, also from a place that
# was named with spaces, or from the current folder on. Run after `rt ci`.
set -u
. tests/shared/complaints.sh
. tools/shared/toolchain.sh
place=$(mktemp -d) || exit 1
trap 'rm -rf "$place"' EXIT
find_compiler || exit 1

# PREFIX is taken for FOLDER, and the example is built from what stands there.
installs() { # PREFIX FOLDER
    make -s install PREFIX="$1" >"$place/said" || complain "make install PREFIX='$1': status $?"
    grep -qxF "prefix=$2" "$2/lib/pkgconfig/bhorelmu.pc" || complain "$1: the .pc file does not name $2"
    grep -qxF "Version: $(cat VERSION)" "$2/lib/pkgconfig/bhorelmu.pc" || complain "$1: the .pc file has not the version of VERSION"
    ${cc% -Iinclude} -I"$2/include" examples/session.c -L"$2/lib" -lbhorelmu -o "$place/example" || complain "$1: the example is not built"
    $run "$place/example" | diff examples/session.expected - || complain "$1: the example prints something else"
}

installs "$place/plain" "$place/plain"
installs "$place/two words & more" "$place/two words & more"
installs "$(realpath --relative-to=. "$place")/relative" "$(pwd)/$(realpath --relative-to=. "$place")/relative"
if command -v pkg-config >/dev/null; then
    said=$(PKG_CONFIG_PATH="$place/two words & more/lib/pkgconfig" pkg-config --cflags --libs bhorelmu)
    eval "set -- $said"
    [ "$1" = "-I$place/two words & more/include" ] || complain "pkg-config says $1"
fi

# What a package is made of: the files below DESTDIR, and a .pc file that does not name it.
make -s install PREFIX=/usr DESTDIR="$place/package" >/dev/null || complain "make install DESTDIR=: status $?"
grep -qxF prefix=/usr "$place/package/usr/lib/pkgconfig/bhorelmu.pc" || complain "the .pc file of a package does not name its PREFIX"
exit "$bad"
