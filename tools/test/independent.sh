# shellcheck shell=bash disable=SC2154 # tools/names.sh and ./test have what is not set here
# The parts of ./test in which what is kept beside proved crates must be what another program, in
# another language, prints: the package `independent`. It is sourced by ./test.

same_examples() {
    local kept=crates/$digests_crate/stdout
    cargo run --offline --quiet --release -p independent --bin fips-examples \
        >build/fips-examples || return
    cmp build/fips-examples "$kept" || return
    say "$(wc -l <build/fips-examples) digests agree"
}

# The piles that the proved programs are run on, and what is to be said of them, come from that
# other program too: it makes both anew, and they must be what is kept, in whichever folder.
same_verdicts() {
    local kept
    rm -rf build/samples build/kept && mkdir -p build/samples build/kept || return
    cargo build --offline --quiet --release -p independent --bins || return
    build/cargo/release/samples build/samples >build/pairs || return
    for kept in crates/*/data/*; do
        cmp "$kept" "build/samples/${kept##*/}" && cp "$kept" build/kept/ || return
    done
    diff -r build/samples build/kept || return
    same_lines "$program_crate" 2 && same_lines "$cases_crate" 2 && same_lines "$alone_crate" 1 || return
    say "$(wc -l <build/pairs) piles are as kept, and the verdicts agree"
}

# What that other program says of the piles that a program is run on, so many words at a time, is
# what the program prints. The words of its file `args` are names in the folder of the piles.
same_lines() { # PROGRAM WORDS
    (cd build/samples && xargs -d '\n' -n "$2" -a "../../crates/$1/args" ../cargo/release/verdict) |
        cmp - "crates/$1/stdout"
}
