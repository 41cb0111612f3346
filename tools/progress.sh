# shellcheck shell=bash
# How far a proof has come, in words. It is sourced by tools/kit.sh.

# The crates that are proved for these ones, each after those that it needs, a line each with tabs
# between: its name; the seconds that it takes, as tools/seconds.txt has them; and those of all that
# come after it. They are proved one after the other.
planned() { # NAME...
    WANTED=$* awk '
        function visit(name,    used, count, at) {
            if (name in seen) return
            seen[name] = 1
            count = split(uses[name], used, " ")
            for (at = 1; at <= count; at++) if (used[at] in uses) visit(used[at])
            found[++crates] = name
        }
        { sub(/#.*/, "") }
        FILENAME ~ /seconds.txt$/ { if (NF == 2) kept[$1] = $2; next }
        index($0, ":") { split(substr($0, 1, index($0, ":") - 1), before, " "); sub(/^[^:]*:/, ""); uses[before[1]] = $0 }
        END {
            count = split(ENVIRON["WANTED"], wanted, " ")
            for (at = 1; at <= count; at++) visit(wanted[at])
            for (at = crates; at > 0; at--) {
                takes[at] = found[at] in kept ? kept[found[at]] : 20
                after[at] = after[at + 1] + takes[at + 1]
            }
            for (at = 1; at <= crates; at++) printf "%s\t%d\t%d\n", found[at], takes[at], after[at]
        }' tools/seconds.txt crates.txt
}

# How long is left, in words: of what is foreseen for this crate, what it has taken so far, and of
# the rest.
left() { # HERE SO-FAR REST
    local seconds=$(($1 - $2 + $3)) minutes
    minutes=$(((seconds + 30) / 60))
    if [ "$2" -gt "$1" ]; then
        printf 'longer than foreseen, %d seconds so far' "$2"
    elif [ "$seconds" -lt 60 ]; then
        printf 'less than a minute left'
    else
        printf 'about %d minute%s left' "$minutes" "$([ "$minutes" -eq 1 ] || echo s)"
    fi
}

# Reads what is said while these crates are proved, and tells of each how many are proved by then
# and how long the rest may take; and the same again where nothing was told for a while. The kept
# seconds are another machine's: those that were measured so far scale them. A crate that was
# proved before is counted, and not told of.
tell_progress() { # NAME...
    local line part='' name took now=$SECONDS since=$SECONDS told=$SECONDS next=0 count=0 due=0 measured=0
    local -a names later
    local -A takes seen=()
    while IFS=$'\t' read -r name took line; do
        names+=("$name") takes[$name]=$took later+=("$line")
    done < <(planned "$@")
    while :; do
        if IFS= read -r -t "${TRAWLBEACON_PULSE:-20}" line; then
            line=$part$line part=''
        elif [ $? -gt 128 ]; then
            part=$part$line line=''
        else
            break
        fi
        now=$SECONDS
        if [[ $line =~ ^rt:\ ([a-z0-9_]+)\ proved\ \((.*)\)$ ]] && [ -n "${takes[${BASH_REMATCH[1]}]-}" ]; then
            name=${BASH_REMATCH[1]} took=${BASH_REMATCH[2]} since=$now
            [ -n "${seen[$name]-}" ] || count=$((count + 1))
            seen[$name]=yes
            while [ -n "${seen[${names[next]-none}]-}" ]; do next=$((next + 1)); done
            [[ $took =~ ^([0-9]+)\ s$ ]] || continue
            due=$((due + takes[$name])) measured=$((measured + BASH_REMATCH[1])) told=$now
            progress "proved $name ($took):"
        elif [ $((now - told)) -ge "${TRAWLBEACON_PULSE:-20}" ] && [ "$next" -lt "${#names[@]}" ]; then
            told=$now
            progress "proving ${names[next]}:"
        fi
    done
}

# Of what tell_progress has counted.
progress() { # WHAT
    local here=0 rest=${later[next]-0}
    [ "$next" -ge "${#names[@]}" ] || here=${takes[${names[next]}]}
    if [ "$due" -ge 10 ]; then here=$((here * measured / due)) rest=$((rest * measured / due)); fi
    if [ "$count" -lt "${#names[@]}" ]; then
        tell "$1 $count of ${#names[@]} crates, $(left "$here" $((now - since)) "$rest")"
    else
        tell "$1 $count of $count crates"
    fi
}
