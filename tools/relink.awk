# relink.awk: prints a document as it is installed. A link to a file or folder that is installed,
# too, leads to it from there; of any other relative link the words are left, since what it leads to
# is in the repository alone.
#
#     awk -v from=DOCUMENT -v to=INSTALLED-DOCUMENT -f tools/relink.awk PLACED DOCUMENT
#
# PLACED has a line for each thing that is installed: its path in the repository, a tab, and its
# path below the prefix.

BEGIN { FS = "\t" }

FNR == NR { placed[$1] = $2; next }

{ text = text $0 "\n" }

END {
    while (match(text, /\]\([^() ]+\)/)) {
        before = substr(text, 1, RSTART - 1)
        target = substr(text, RSTART + 2, RLENGTH - 3)
        text = substr(text, RSTART + RLENGTH)
        printf "%s", relinked(before, target)
    }
    printf "%s", text
}

# The text up to the end of a link. A link starts at the last bracket.
function relinked(before, target,    start, named, heading) {
    if (target ~ /^[a-z]+:|^#/) return before "](" target ")"
    if (target ~ /#/) heading = substr(target, index(target, "#"))
    named = whole(folder(from) substr(target, 1, length(target) - length(heading)))
    if (named in placed) return before "](" relative(folder(to), placed[named]) heading ")"
    for (start = length(before); start > 0 && substr(before, start, 1) != "["; start--) continue
    return substr(before, 1, start - 1) substr(before, start + 1)
}

# The folder of a file, with a slash behind it, or nothing.
function folder(file) {
    sub(/[^\/]*$/, "", file)
    return file
}

# A path with each step up taken.
function whole(path) {
    while (path ~ /[^\/]+\/\.\.\//) sub(/[^\/]+\/\.\.\//, "", path)
    sub(/\/$/, "", path)
    return path
}

# The way from a folder to a file, by what they have in common.
function relative(here, there,    up) {
    while (here != "" && index(there, first(here)) == 1) {
        there = substr(there, length(first(here)) + 1)
        here = substr(here, length(first(here)) + 1)
    }
    while (here != "") {
        up = up "../"
        here = substr(here, length(first(here)) + 1)
    }
    return up there
}

# The first folder of a path, with its slash.
function first(path) { return substr(path, 1, index(path, "/")) }
