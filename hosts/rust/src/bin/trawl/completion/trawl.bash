# Completion of trawl for bash.

_trawl() {
    local word=${COMP_WORDS[COMP_CWORD]} before=${COMP_WORDS[COMP_CWORD - 1]} flags
    case $before in
    --servers | --out)
        compopt -o filenames
        mapfile -t COMPREPLY < <(compgen -f -- "$word")
        return
        ;;
    --reports)
        compopt -o filenames
        mapfile -t COMPREPLY < <(compgen -d -- "$word")
        return
        ;;
    --of)
        mapfile -t COMPREPLY < <(compgen -W "3 4 5 6 7 8" -- "$word")
        return
        ;;
    --within | --watch)
        COMPREPLY=()
        return
        ;;
    esac
    case " ${COMP_WORDS[*]:1} " in
    *" --judge "*) flags="--servers --json --dates --status" ;;
    *" --cut "*) flags="--servers --json --out --force" ;;
    *" --draw "*) flags="--servers --svg --out --force --status" ;;
    *" --make "*) flags="--out --force" ;;
    *" --ask "*) flags="--of --all --within --watch --reports --json" ;;
    *" --look-up "* | *" --list "* | *" --help "* | *" --version "*) flags= ;;
    *)
        flags="--status --json --dates"
        [ "$COMP_CWORD" -gt 1 ] ||
            flags+=" --ask --judge --cut --draw --make --look-up --list --help --version"
        ;;
    esac
    if [[ $word == -* ]]; then
        mapfile -t COMPREPLY < <(compgen -W "$flags" -- "$word")
    else
        compopt -o filenames
        mapfile -t COMPREPLY < <(compgen -f -- "$word")
    fi
}

complete -F _trawl trawl
