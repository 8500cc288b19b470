#!/bin/sh
# Tells what is wrong with the files of `make mend`, before anything is proved: status 2 then, and else 0.
#
#     tools/mend/look_at_files.sh IMAGE OUT
#
# IMAGE is the settings image that is to be mended, and OUT the file that gets the mended one: another file, which need not be there. The
# image itself is never written to.
set -u
case ${1:-} in -h | --help) exec sed -n '2,/^[^#]/s/^# \{0,1\}//p' "$0" ;; esac
refuse() { # WHICH WHAT
    echo "$1: $2" >&2
    exit 2
}

image=${1:-} out=${2:-}
[ -n "$image" ] || refuse "IMAGE=" "no image is named; give one, as make mend IMAGE=board.bin OUT=mended.bin"
[ -e "$image" ] || refuse "IMAGE=$image" "there is no such file; a path counts from the folder that make runs in"
[ -f "$image" ] || refuse "IMAGE=$image" "this is a folder or a device, and no file; store the image in a file"
[ -r "$image" ] || refuse "IMAGE=$image" "this file cannot be read; look at its permissions"
[ -n "$out" ] || refuse "OUT=" "no file is named for the mended image; give one, as OUT=mended.bin"
[ ! "$image" -ef "$out" ] || refuse "OUT=$out" "this is the image itself, which is kept; name another file"
if [ -e "$out" ]; then
    [ -f "$out" ] || refuse "OUT=$out" "this is a folder or a device, and no file; name another"
    [ -w "$out" ] || refuse "OUT=$out" "this file cannot be written to; name another, or look at its permissions"
    exit 0
fi
case $out in */) refuse "OUT=$out" "this names a folder, and no file; add the name of one" ;; esac
folder=$(dirname -- "$out")
[ -d "$folder" ] || refuse "OUT=$out" "there is no folder $folder; make it first"
[ -w "$folder" ] || refuse "OUT=$out" "nothing can be written to $folder; name a file in another folder"
