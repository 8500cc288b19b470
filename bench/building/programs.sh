# Builds the programs of the bench for one kind of processor. To be sourced in the repository's root, after tools/shared/toolchain.sh.
#
# `x86_64-linux-gnu-gcc`, and so on, is how Debian names the tools for a processor, on a machine of its own kind too.
bench_words="-std=c11 -O2 -Wall -Wextra -Wpedantic -Werror -Iinclude -I. -Ibench/programs/measuring"

# The word that a part's boards and model are compiled with.
word_of() { # PART
    [ "$1" = mspm0 ] || echo -DAM13E230X
}

# The code of some folders of bench/programs as one object, whose code has a section of its own.
compile_apart() { # PART MACHINE OUT FOLDER..
    part_word=$(word_of "$1") gcc=$2-linux-gnu-gcc linked=$2-linux-gnu-ld out=$3
    shift 3
    rm -rf "$out.parts"
    mkdir -p "$out.parts"
    for folder_of_sources in "$@"; do
        for source in bench/programs/"$folder_of_sources"/*.c; do
            $gcc $bench_words $part_word -Ibench/programs/calls -c "$source" \
                -o "$out.parts/$(basename "$(dirname "$source")")_$(basename "$source" .c).o" || return 1
        done
    done
    $linked -r -T bench/programs/measuring/apart.ld "$out".parts/*.o -o "$out"
}

# The model: by gcc, and a second time, under other names, by the toolchain's clang.
compile_models() { # PART MACHINE FOLDER
    $2-linux-gnu-gcc $bench_words $(word_of "$1") -c verification/model/model.c -o "$3/$1_by_gcc.o" &&
        $clang --target="$2-unknown-linux-gnu" --no-default-config -std=c11 -O3 -nostdinc $(headers_of "$2-linux-gnu-gcc") \
            -Iinclude -I. $(word_of "$1") -c bench/programs/rivals/model_by_clang.c -o "$3/$1_by_clang.o"
}

# FOLDER/calls for the MSPM0 and FOLDER/calls_am13e230x, with the functions of bhorelmu.h in OBJECT..
build_calls() { # MACHINE FOLDER OBJECT..
    build_calls_of mspm0 calls "$@" && build_calls_of am13e230x calls_am13e230x "$@"
}

build_calls_of() { # PART NAME MACHINE FOLDER OBJECT..
    part=$1 name=$2 machine=$3 folder=$4
    shift 4
    mkdir -p "$folder"
    compile_apart "$part" "$machine" "$folder/$name.o" measuring calls "cases_$part" && compile_models "$part" "$machine" "$folder" &&
        "$machine-linux-gnu-gcc" -static "$folder/$name.o" "$folder/${part}"_by_*.o "$@" -o "$folder/$name"
}

# FOLDER/checksums, with proved_checksum and zlib's in OBJECT.. The table of 256 entries is a rival, and its code is measured.
build_checksums() { # MACHINE FOLDER OBJECT..
    machine=$1 folder=$2
    shift 2
    compile_apart mspm0 "$machine" "$folder/checksums.o" measuring checksums &&
        "$machine-linux-gnu-gcc" $bench_words -c bench/programs/rivals/table.c -o "$folder/table.o" &&
        "$machine-linux-gnu-gcc" -static "$folder/checksums.o" "$folder/table.o" "$@" -o "$folder/checksums"
}

# A module of proved crates as an object for this machine, at the level of the archive.
compile_natively() { # MODULE.bc OUT.o
    module_text "$1" "$2.ll" && sed -i '/^target /d; s/ "target-cpu"="[^"]*"//' "$2.ll" &&
        $clang --target="$(uname -m)-unknown-linux-gnu" --no-default-config -O3 -fPIC -Wno-override-module -c -x ir "$2.ll" -o "$2"
}
