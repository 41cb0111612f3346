# Completion of trawld for bash.

_trawld() {
    local word=${COMP_WORDS[COMP_CWORD]} before=${COMP_WORDS[COMP_CWORD - 1]} flags
    case $before in
    --make-key | --delegate | --out | --show | --server-list | --metrics | --test-clock)
        compopt -o filenames
        mapfile -t COMPREPLY < <(compgen -f -- "$word")
        return
        ;;
    --address)
        compopt -o nospace
        mapfile -t COMPREPLY < <(compgen -W "udp: tcp:" -- "$word")
        return
        ;;
    --grease-form)
        mapfile -t COMPREPLY < <(compgen -W "time delegation missing version undefined" -- "$word")
        return
        ;;
    --days | --from | --name | --listen | --sockets | --tcp-connections | --tcp-idle | --tcp-bytes | \
        --radius | --margin | --grease | --line)
        COMPREPLY=()
        return
        ;;
    esac
    case " ${COMP_WORDS[*]:1} " in
    *" --make-key "* | *" --show "* | *" --help "* | *" --version "*) flags= ;;
    *" --delegate "*) flags="--days --from --out --force" ;;
    *" --server-list "*) flags="--name --address" ;;
    *)
        flags="--listen --sockets --no-tcp --tcp-connections --tcp-idle --tcp-bytes --radius --margin
            --trust-clock --grease --grease-form --metrics --line --test-clock"
        [ "$COMP_CWORD" -gt 1 ] ||
            flags+=" --make-key --delegate --show --server-list --help --version"
        ;;
    esac
    if [[ $word == -* ]]; then
        mapfile -t COMPREPLY < <(compgen -W "$flags" -- "$word")
    else
        compopt -o filenames
        mapfile -t COMPREPLY < <(compgen -f -- "$word")
    fi
}

complete -F _trawld trawld
