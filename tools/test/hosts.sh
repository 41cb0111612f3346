# shellcheck shell=bash disable=SC2154 # tools/names.sh and ./test have what is not set here
# The parts of ./test that link the compiled library: hosts in C and in Rust. It is sourced by
# ./test.

# Builds a program of hosts/c.
c_program() { # NAME LIBRARY...
    cc -std=c11 -Wall -Wextra -Werror -O2 -Iinclude -o "build/c/$1" "hosts/c/$1.c" \
        "build/native/$archive" "${@:2}"
}

# A program must print this line with these arguments.
says() { # PROGRAM LINE ARGUMENT...
    local said
    said=$("$1" "${@:3}")
    [ "$said" = "$2" ] && return
    say "$1 prints '$said', and it should print '$2'"
    return 1
}

# The header must pass a C++ compiler as well, where there is one.
c_host() {
    c_program check && build/c/check | tee build/c-said || return
    c_program stack && build/c/stack || return
    c_program example && console_says build/c/example || return
    c_program walk && says build/c/walk "consistent" 7 || return
    says build/c/walk "malfeasance: records 1 and 2 contradict each other" 8 || return
    # With one liar among three there is a time all the same.
    says build/c/walk "$(printf '%s\n%s' "malfeasance: records 1 and 2 contradict each other" \
        "the time is from 1773685573999900 to 1773685581000200")" 8 1 || return
    command -v c++ >/dev/null || return 0
    c++ -std=c++11 -Wall -Wextra -Werror -fsyntax-only -x c++ include/trawlbeacon.h
}

# The package bench is left out: it has nothing to test, and ./bench builds it.
rust_tests() {
    cargo check --offline --quiet --release -p bench || return
    cargo build --offline --quiet --release -p trawlbeacon --example time --example server || return
    console_says build/cargo/release/examples/time || return
    says build/cargo/release/examples/server \
        "900 responses of 736 bytes are valid: the time is from 1773685568 to 1773685574" \
        1773685571 || return
    cargo test --offline --workspace --exclude bench --release -- --nocapture | tee build/rust-said
}

# The Rust package with a heap and no operating system, and with neither: a program that links no C
# library and no std, so that it has nothing of theirs in it and asks for nothing.
bare_program() {
    local program=build/cargo/release/bare
    cargo build --offline --quiet --release -p trawlbeacon --no-default-features --features alloc ||
        return
    cargo build --offline --quiet --release --manifest-path hosts/bare/Cargo.toml || return
    "$program" || return
    ! nm "$program" | grep -E ' [Uw] |3std'
}

# The bytes of a member of the first entry of the draft's report.
member() { # NAME
    sed -nE "/\"$1\"/ { s/.*: \"([^\"]*)\".*/\1/p; q }" vectors/malfeasance-report.json | base64 -d
}

hex() { od -An -v -tx1 "$@" | tr -d ' \n'; }

# What a program that asks for the time must say of the draft's first response: as it is, with a
# byte changed in either signature, of none at all, and with a byte of its number of tags changed.
console_says() { # CONSOLE
    local room=build/console right="the time is from 1773685568 to 1773685574" key nonce
    mkdir -p "$room" && key=$(member publicKey | hex) && member response >"$room/right" || return
    nonce=$(hex -j 132 -N 32 "$room/right") || return
    says "$1" "$right" && says "$1" "$right" "$key" "$nonce" "$room/right" || return
    damaged 68 && says "$1" "refused with code 13: the response's signature does not verify" \
        "$key" "$nonce" "$room/damaged" || return
    damaged 276 && says "$1" "refused with code 12: the delegation's signature does not verify" \
        "$key" "$nonce" "$room/damaged" || return
    says "$1" "refused with code 1: the packet has under 12 or over 2,000 bytes" \
        "$key" "$nonce" /dev/null || return
    damaged 12 && says "$1" "refused with code 4: a message's length, number of tags, header or \
offset is wrong, at byte 12" "$key" "$nonce" "$room/damaged"
}

# That response with a 0 in this place.
damaged() { # OFFSET
    cp build/console/right build/console/damaged &&
        xtask poke build/console/damaged "$1" 0 >/dev/null
}

# The draft's own signatures, those that the library makes, and responses that were forged without
# the server's key.
signatures() {
    local package=(--offline --release -p trawlbeacon --features openssl)
    c_program console -lcrypto && console_says build/c/console || return
    cargo build "${package[@]}" --quiet --example console || return
    console_says build/cargo/release/examples/console || return
    cargo test "${package[@]}" --test signatures --test forgery --test third -- --nocapture
}
