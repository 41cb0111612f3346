# shellcheck shell=bash disable=SC2154 # tools/names.sh and ./test have what is not set here
# The part of ./test in which rt proves everything. It is sourced by ./test.

# rt's last line counts what passed. It is held back, since more is to pass before it is true of
# the whole. What rt says is kept, for where the wrong programs are refused and what is assumed. Of
# what it leaves of libraries it is noted what they were made of.
proofs() {
    local status=0 TIMEFORMAT="$me: the proofs took %U seconds of the processors, and %S of the system"
    (
        # shellcheck source=tools/kit.sh
        . tools/kit.sh
        find_kit
        take_lock
        there=$(find crates -path 'crates/*/out/rlib/*.rlib/format' -print -quit)
        time rt ci || exit
        before=$of of=$(made_of)
        note_ci_libraries "$before" "$there"
    ) | tee build/proofs | tell_counts | hold_back_last "$count" || status=$?
    [ "$status" -eq 0 ] && grep -qxE '[0-9]+ passed, 0 failed' "$count" && all_edits_count build/proofs && return
    cat "$count"
    say "rt ci ended with status $status"
    return 1
}

# A wrong program that cannot be tried fails nothing for rt, and shows nothing. rt counts those that
# are bad behind those that were refused, in its last line but one.
all_edits_count() { # SAID
    local ok
    ok=$(grep '^rt: ok; ' "$1") || { say "rt ci does not say that all is well" && return 1; }
    ! [[ $ok =~ must-fail\ edits:\ [^\;]*,\ [1-9][0-9]*\ bad ]] || { say "wrong programs that could not be tried: $ok" && return 1; }
}

# Passes its input on as it comes, but for the last line, which it writes to a file.
hold_back_last() { # FILE
    awk -v file="$1" 'NR > 1 { print last; fflush() } { last = $0 } END { print last >file }'
}

# Passes on what rt says, and where it says nothing for a while how far it has come.
tell_counts() {
    local line crates edits proved=0 begun=0
    crates=$(grep -cE '^[a-z0-9_]+[^:#]*:' crates.txt)
    edits=$(find crates -path '*/must-fail/*.edit' | wc -l)
    while :; do
        if IFS= read -r -t "${TRAWLBEACON_PULSE:-20}" line; then
            printf '%s\n' "$line"
            if [[ $line =~ ^rt:\ [a-z0-9_]+\ (proved$|is\ kept:\ ) ]]; then proved=$((proved + 1)); fi
            if [[ $line =~ ^rt:\ [a-z0-9_]+:\ trying\ its\ must-fail\ edits\ \(([0-9]+)\)$ ]]; then begun=$((begun + BASH_REMATCH[1])); fi
        elif [ $? -gt 128 ]; then
            tell "$proved of $crates crates are proved, and $begun of $edits files of wrong programs begun"
        else
            break
        fi
    done
}
