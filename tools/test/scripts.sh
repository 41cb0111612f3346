# shellcheck shell=bash
# The part of ./test that looks at the scripts themselves. It is sourced by ./test.

# The files that are scripts, or are sourced by some.
scripts() { grep -lE '^#!.*sh$|^# shellcheck shell=' -- * tools/* tools/test/* 2>/dev/null; }

# bash reads them, shellcheck finds nothing, and comments end where lines do.
clean_scripts() {
    local files script status=0
    mapfile -t files < <(scripts)
    for script in "${files[@]}"; do bash -n "$script" || status=1; done
    awk '/^ *# / && length($0) > 100 { printf "%s:%d: this comment is over 100 columns\n", FILENAME, FNR
        long = 1 } END { exit long }' "${files[@]}" tools/*.awk || status=1
    if command -v shellcheck >/dev/null; then
        shellcheck "${files[@]}" || status=1
    else
        say "LEFT OUT: shellcheck, which is not installed here"
    fi
    [ "$status" -ne 0 ] || say "${#files[@]} scripts are as bash and shellcheck want them"
    return "$status"
}
