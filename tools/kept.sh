# shellcheck shell=bash disable=SC2154 # tools/names.sh and ./test have what is not set here
# What is kept of the lines that the proved programs print, for those that must print the same. It
# is sourced after tools/shell.sh.

# The command must print, of the files that rt runs the proved programs on, what these print.
prints_as_kept() { # COMMAND...
    as_kept "$cases_crate" 2 "$@" && as_kept "$alone_crate" 1 "$@"
}

as_kept() { # CRATE FILES-AT-A-TIME COMMAND...
    (cd "crates/$1/data" && xargs -d '\n' -n "$2" -a ../args "${@:3}") | cmp - "crates/$1/stdout"
}

# What is to be said of draft 19's own report.
draft_verdict() { head -n 5 "crates/$alone_crate/stdout"; }
