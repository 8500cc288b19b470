# Makes target/bench/checksum/export.o, which has checksum::checksum_of for C, and beside it the module that it was made of. To be sourced in
# the repository's root, after tools/shared/toolchain.sh.
#
# A static library exports only what is marked extern "C", and the checksum is for Rattle alone. So the export is a crate of its own, made
# beside copies of the crates it stands on, and proved and compiled as the product is. It stands outside of the repository, where `rt ci` takes
# no other crate.
exported=target/bench/checksum/export.o
exported_module=target/bench/checksum/export.bc

copy_crate() { # NAME TO
    mkdir -p "$2/crates/$1"
    for part in src specs proofs; do
        [ ! -d "crates/$1/$part" ] || cp -R "crates/$1/$part" "$2/crates/$1/"
    done
    grep "^$1:" crates.txt >>"$2/crates.txt"
}

write_export() { # TO
    mkdir -p "$1/crates/export/src"
    cat >"$1/crates/export/src/lib.rt" <<'END'
#![tactic(auto)]

ghost use Rattle.std.specs.Prelude.{◌≡◌};
ghost use Rattle.checksum.specs.Checksum.{checksum_of};

#[unsafe(no_mangle)]
pub extern "C" fn proved_checksum(bytes: &[u8]) -> u32
    ensures { result ≡ checksum_of bytes.now }
{
    checksum::checksum_of(bytes)
}
END
    echo "export staticlib: checksum" >>"$1/crates.txt"
}

# The export, unless it is there and nothing of the crates is newer.
export_checksum() {
    below=$(sed -n 's/^checksum://p' crates.txt)
    sources=crates.txt
    for crate in $below checksum; do sources="$sources crates/$crate/src crates/$crate/specs crates/$crate/proofs"; done
    if [ -f "$exported_module" ] && [ -z "$(find $sources -newer "$exported_module" -type f 2>/dev/null | head -n 1)" ]; then
        return 0
    fi
    aside=$(mktemp -d) || return 1
    for crate in $below checksum; do copy_crate "$crate" "$aside"; done
    write_export "$aside"
    mkdir -p target/bench/checksum
    prover=$PWD/tools/prover.py
    (cd "$aside" && "$prover" build export)
    status=$?
    cp "$aside"/target/staticlib/export.* target/bench/checksum/ 2>/dev/null
    [ "$status" -eq 0 ] || echo "the export was not built; target/bench/checksum/export.log has what the prover said" >&2
    rm -rf "$aside"
    return "$status"
}
