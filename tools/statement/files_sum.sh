#!/bin/sh
# A sum over every file of the repository, its name and its contents: two states that have the same sum are the same files.
# Files that git is told to ignore do not count. To be run in the repository's root; without git it ends non-zero.
set -u
case ${1:-} in -h | --help) exec sed -n '2,/^[^#]/s/^# \{0,1\}//p' "$0" ;; esac
git rev-parse --git-dir >/dev/null 2>&1 || exit 1
git ls-files -z --cached --others --exclude-standard | LC_ALL=C sort -zu | xargs -0r sha256sum 2>&1 | sha256sum | cut -d ' ' -f 1
