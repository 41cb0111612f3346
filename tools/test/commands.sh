# shellcheck shell=bash disable=SC2154 # tools/names.sh and ./test have what is not set here
# The parts of ./test that run what people run. It is sourced by ./test, with tools/test/hosts.sh
# for `says` and tools/kept.sh.

# The program without the kit. Where rt's own code of it is for this processor it is tried, too,
# with the C code that stands in for the kit's on other ones.
program_by_itself() {
    local program=$PWD/build/$verdict
    tools/native-program "$program_crate" "$program" && prints_as_kept "$program" || return
    [ "$(uname -m)" = x86_64 ] || return 0
    cc -Wall -Wextra -Werror -O2 -Wl,--gc-sections -o build/c/verdict "build/module/$program_crate.o" hosts/c/os.c || return
    prints_as_kept "$PWD/build/c/verdict"
}

# What rt cannot run: the command that people type, from another folder, on names with spaces, on a
# pile one byte longer than the longest (which is not kept for its size), on a pile alone, on a
# report in JSON, with an argument too many, and twice at once where it is not built. The rest that
# its flags do is tested from Rust (hosts/rust/tests/program.rs).
command_trawl() {
    local room="build/a room" kept=crates/$program_crate most=crates/$cases_crate/data/most
    local long="$room/longest and one" status=0
    rm -rf "$room" && mkdir -p "$room/inner" || return
    cp "$kept/data/example5.pile" "$room/inner/a pile" || return
    cp "$kept/data/example5.answers" "$room/its answers" || return
    { cat "$most.pile" && printf x; } >"$long" || return
    ./trawl | cmp - "$kept/stdout" || return
    (cd "$room/inner" && ../../../trawl "a pile" "../its answers") | cmp - "$kept/stdout" || return
    says ./trawl "refused 15" "$long" "$most.answers" || return
    says ./trawl "refused 15" "$room/missing" "$room/missing" || return
    says ./trawl "refused 15" "$long" || return
    ./trawl "crates/$alone_crate/data/appendix.pile" | cmp - <(draft_verdict) || return
    ./trawl --judge vectors/malfeasance-report.json | cmp - <(draft_verdict) || return
    rm -f build/bin/built build/bin/trawl "build/$verdict" || return
    ./trawl 2>/dev/null >"$room/first" &
    ./trawl 2>/dev/null | cmp - "$kept/stdout" && wait $! || return
    cmp "$room/first" "$kept/stdout" || return
    ./trawl "$room/inner/a pile" "$room/its answers" "$room/missing" 2>/dev/null || status=$?
    [ "$status" -eq 2 ]
}

# What the story must have in it, whichever packets are lost: what the network does, that there is a
# time beside the lie, that the lie is shown, written and judged, and that there is a time again
# with a server less.
story=(
    "network  loses " "network  damages " "network  delays "
    "console  time     20" "console  suspect  cedar" "by its own clock, between the two"
    "console  walk     malfeasance: 6 answers of 3 servers" "console  lie      "
    "console  report   'build/demo/malfeasance-1.json'" "apart, and contradict each other" "console  run 0 1"
    "birch is stopped, and cedar goes on lying." "birch    asked " "console  silent   birch: "
    "console  counted  2 of 3, of which 1 may lie: it is between the ends, but an end may be"
)

# The keys that convict are in the story's own list, and the proved program says the same of the
# report's records.
command_demo() {
    local line said=build/demo-said room=build/demo
    ./demo >"$said" || { cat "$said" && return 1; }
    for line in "${story[@]}"; do
        grep -qF "$line" "$said" || { cat "$said" && say "./demo says no '$line'" && return 1; }
    done
    ./trawl --judge "$room/malfeasance-1.json" --servers "$room/servers.json" --status >/dev/null || return
    ./trawl --cut "$room/malfeasance-1.json" --out "$room/pile" --force 2>/dev/null || return
    [ "$(./trawl "$room/pile" 2>/dev/null | tail -n 1)" = "run 0 1" ] || return
    grep -q '^{"responses":\[{"publicKey":' "$room/malfeasance-1.json" || return
    grep -q '^<svg ' "$room/report.svg"
}
