# Debian's zlib for x86-64, and for this machine. To be sourced in the repository's root; sets `zlib` and `native_zlib`.
native_zlib=/usr/lib/$(uname -m)-linux-gnu/libz.a
zlib=$native_zlib
fetched=$PWD/target/bench/zlib
[ "$(uname -m)" = x86_64 ] || zlib=$fetched/usr/lib/x86_64-linux-gnu/libz.a

# apt for x86-64 with lists of its own, so that nothing of this machine's own changes.
apt_for_x86_64() { # WORD..
    apt-get -o APT::Architecture=amd64 -o APT::Architectures=amd64 -o Dir::State::Lists="$fetched/lists" \
        -o Dir::Cache="$fetched/cache" "$@"
}

fetch_zlib() {
    mkdir -p "$fetched/lists/partial" "$fetched/cache/archives/partial"
    apt_for_x86_64 update && (cd "$fetched" && apt_for_x86_64 download zlib1g-dev && dpkg -x zlib1g-dev_*_amd64.deb .)
}

find_zlib() {
    [ -f "$native_zlib" ] || { apt-get update && apt-get install -y zlib1g-dev; } >/dev/null 2>&1 || {
        echo "bench: needs $native_zlib (Debian: zlib1g-dev), and could not install it" >&2
        return 1
    }
    [ -f "$zlib" ] || fetch_zlib >target/bench/zlib.log 2>&1 || {
        echo "bench: could not fetch Debian's zlib1g-dev for amd64; target/bench/zlib.log says why" >&2
        return 1
    }
}
