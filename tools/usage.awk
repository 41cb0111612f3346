# usage.awk: says of the words behind trawl, where it is not built, what needs no program. It goes
# by the lines of usage of its help, as the front end does (hosts/rust/src/bin/trawl/actions.rs),
# and says the same.
#
#     awk -f tools/usage.awk hosts/rust/src/bin/trawl/help.txt WORD...
#
# The status is 7 where help is asked for, 8 where the version is, 2 where a flag is wrong, which it
# says, and 9 where the front end is to look at the words.

BEGIN {
    while ((getline line <ARGV[1]) > 0 && line != "") learn(line)
    for (at = 2; at < ARGC && ARGV[at] != "--"; at++) if (ARGV[at] == "-h" || ARGV[at] == "--help") exit 7
    for (at = 2; at < ARGC && ARGV[at] != "--"; at++) if (ARGV[at] ~ /^-./) flag(ARGV[at])
    if (asked == "" && (("--json" in given) || ("--dates" in given))) asked = "--judge"
    for (at = 1; at <= flags; at++) if (!((asked, order[at]) in goes)) wrong(order[at] " goes with " with[order[at]], called[asked])
    exit (asked == "--version" ? 8 : 9)
}

# What a line of usage says: which flags an action takes, and which of them name a file.
function learn(line,    words, count, at, word, action) {
    usage = usage line "\n"
    sub(/^(usage:)? */, "", line)
    count = split(line, words, " ")
    for (at = 1; at <= count; at++) {
        word = words[at]
        gsub(/[][]/, "", word)
        if (word !~ /^--/) continue
        if (words[at] !~ /^\[/) {
            action = word
            called[action] = "usage: " line "\n"
            continue
        }
        goes[action, word] = 1
        with[word] = joined(with[word], action == "" ? "files alone" : action)
        if (words[at] !~ /\]/) names[word] = 1
    }
    if (action == "") called[""] = "usage: " line "\n"
}

# Names, one after the other as words: a, b and c.
function joined(before, name) {
    if (before == "") return name
    sub(/ and /, ", ", before)
    return before " and " name
}

function flag(word,    name) {
    name = word
    sub(/=.*/, "", name)
    if (name in called) {
        if (asked != "") wrong(asked " and " name " cannot be asked for at once", usage)
        asked = name
    } else if (!(name in with)) {
        gsub(/[[:cntrl:]]/, "?", name)
        wrong("there is no flag " name (name ~ /^--/ ? "" : "; a file of that name is written ./" name), usage)
    } else {
        given[name] = 1
        order[++flags] = name
        if ((name in names) && word !~ /=/) at++ # the next word is its file
    }
}

function wrong(words, lines) {
    printf "trawl: %s\n%s", words, lines >"/dev/stderr"
    exit 2
}
