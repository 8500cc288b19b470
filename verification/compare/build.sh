# Builds the comparison of the library with the model, for each part, in the repository's root. To be sourced.
. tools/shared/toolchain.sh
parts="mspm0 am13e230x"
comparison_headers="-Iverification -Iverification/compare -Iverification/compare/inputs -Iverification/compare/seen -Iverification/compare/pairs"
comparison_sources="verification/compare/*.c verification/compare/inputs/*.c verification/compare/seen/*.c verification/compare/pairs/*.c verification/model/model.c"

# The words that model and comparison are compiled with for a part.
part_words() { # PART
    [ "$1" = mspm0 ] || echo -DAM13E230X
}

comparison_of() { # PART
    echo "target/verification/compare_$1"
}

build_comparison() {
    mkdir -p target/verification
    for part in $parts; do
        # the words are to be split, and the stars to be filled in
        $cc $(part_words "$part") $comparison_headers $comparison_sources "$library" -o "$(comparison_of "$part")" || return 1
    done
}
