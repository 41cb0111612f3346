# shellcheck shell=bash
# What the scripts here begin with that are in bash. Who sources it is in the repository's root from
# then on, and `here` is the folder that it was called in. Where people call a script, it has
# `help`.

me=${0##*/} # what stands before all that a script says
here=$PWD
cd "$(dirname "$(readlink -f "${BASH_SOURCE[0]}")")/.." || exit 1

# shellcheck source=tools/names.sh
. tools/names.sh
# shellcheck source=tools/processors.sh
. tools/processors.sh

# Nothing of the caller's environment may lead a script elsewhere: cd by a relative name, tar and
# gzip to other options, cargo to another folder or processor than those whose programs are then
# run, installed and shipped, and a package to another library.
unset CDPATH TAR_OPTIONS GZIP TRAWLBEACON_LIB_DIR
unset CARGO_BUILD_TARGET CARGO_BUILD_TARGET_DIR CARGO_BUILD_BUILD_DIR CARGO_BUILD_DEP_INFO_BASEDIR
export CARGO_TARGET_DIR=$PWD/build/cargo

say() { printf '%s: %s\n' "$me" "$*"; }

# The same to who looks on, beside what the script is asked for.
tell() { say "$@" >&2; }

die() {
    tell "$@"
    exit 1
}

# Answers --help, -h and --version wherever they stand among the words, before anything is looked
# for or built. Where the answer cannot be written the status is 1.
answer_first() { # WORD...
    local word
    for word; do
        case $word in
        -h | --help) if help; then exit 0; else exit 1; fi ;;
        --version) if printf 'trawlbeacon %s\n' "$(cat VERSION)"; then exit 0; else exit 1; fi ;;
        --) return ;;
        esac
    done
}

# The arguments are wrong: says so, and how it is called.
misused() { # WHAT
    { say "$1" && help | sed '/^$/,$d'; } >&2
    exit 2
}

# What a name holds that could steer a terminal is spelled out.
named() { # NAME
    printf '%q' "$1"
}

# A path of the caller's, from the root.
from_here() { # PATH
    (cd "$here" && readlink -m -- "$1")
}

# Who has no kit can have what it makes.
no_kit() {
    die "NOT RUN: the command rt is not on the PATH. It is the Rattle kit's, which proves and compiles
the library. Without the kit take the archive of a release, \
trawlbeacon-$(cat VERSION)-linux-$(uname -m).tar.gz,
from whoever gave you this clone: it has the library and the program trawl ready, and needs neither
kit nor prover. tools/release makes it on a machine that has the kit."
}

need_kit() { command -v rt >/dev/null || no_kit; }

# Whether the library is there and, where the kit is, made of it and of the crates as they are.
have_library() { # ARCHIVE
    [ -f "$1" ] || return 1
    command -v rt >/dev/null || return 0
    # shellcheck source=tools/kit.sh
    (. tools/kit.sh && find_kit && made_of_these "$1")
}

# Whether programs can be built with OpenSSL's Ed25519.
have_openssl() {
    mkdir -p build
    printf '#include <openssl/evp.h>\nint main(void) { return %s == 0; }\n' \
        'EVP_PKEY_new_raw_public_key(EVP_PKEY_ED25519, 0, 0, 0)' |
        cc -x c -o build/openssl - -lcrypto 2>/dev/null
}

# Whether they can be built with libsodium's.
have_sodium() {
    mkdir -p build
    printf '#include <sodium.h>\nint main(void) { return sodium_init() < 0; }\n' |
        cc -x c -o build/sodium - -lsodium 2>/dev/null
}

# A disassembler for a processor: this machine's, or that which comes with the compiler for it.
reader_of() { # PROCESSOR
    if [ "$1" = "$(uname -m)" ]; then command -v objdump; else command -v "$(gnu_name "$1")-objdump"; fi
}

# Puts a copy of a file in its place in one step, once it is on the disk, so that there is the old
# one or the new one, whole.
put_whole() { # FILE PLACE
    cp "$1" "$2.new" && sync "$2.new" && mv "$2.new" "$2" && return
    rm -f "$2.new"
    return 1
}

# Two runs in one clone would build the same twice, so that the second waits for the first.
# The lock lasts as long as the script that took it, and those that it runs know that it has it.
# Where there is no flock nobody waits.
take_lock() {
    [ -z "${TRAWLBEACON_LOCKED:-}" ] && command -v flock >/dev/null || return 0
    mkdir -p build
    exec 9>build/lock
    flock -n 9 || until
        tell "waiting for another run in this clone, which proves or builds"
        flock -w "${TRAWLBEACON_PULSE:-20}" 9
    do :; done
    export TRAWLBEACON_LOCKED=yes
}

# A folder in memory for what a command writes for a while, where there is one that has room for
# several checks and in which programs can be run.
room_in_memory() {
    local kind kept free
    read -r kind kept free < <(stat -f -c '%T %S %a' /dev/shm 2>/dev/null)
    [ "$kind" = tmpfs ] && [ $((kept * free)) -ge 4000000000 ] && [ -w /dev/shm ] || return 1
    ! awk '$2 == "/dev/shm" && $4 ~ /noexec/ { found = 1 } END { exit !found }' /proc/mounts || return 1
    mktemp -d /dev/shm/trawlbeacon.XXXXXX
}

# Runs a prover in the way that took least of the processors' time with the older kit. Each check
# unpacks all that is proved below its crate, some thousand small files, and removes them at its
# end: in memory that took half of the system's time that it took on a disk. Who has named a folder
# for such files in TMPDIR has it used. rt runs programs in it as nobody, who must be able to pass
# through. And a check ends soon, so that it need not hand memory back before it does.
proving() { # COMMAND...
    local room
    if [ -n "${TMPDIR:-}" ] || ! room=$(room_in_memory); then
        MIMALLOC_PURGE_DELAY=-1 "$@"
        return
    fi
    (
        trap 'rm -rf "$room"' EXIT
        chmod 711 "$room"
        TMPDIR=$room MIMALLOC_PURGE_DELAY=-1 "$@"
    )
}

# Runs a command whose words go to standard error, and says every so often that it still runs.
patiently() { # WHAT COMMAND...
    local what=$1 line part='' began=$SECONDS
    shift
    "$@" </dev/null 2>&1 | while :; do
        if IFS= read -r -t "${TRAWLBEACON_PULSE:-20}" line; then
            printf '%s%s\n' "$part" "$line" >&2
            part=''
        elif [ $? -gt 128 ]; then
            part=$part$line
            tell "still $what, $((SECONDS - began)) seconds so far"
        else
            break
        fi
    done
}

# The program that holds documents and tables to the tree, as `cargo xtask` runs it for people.
xtask() { # CHECK WORD...
    cargo run --offline --quiet --release -p xtask -- "$@"
}

# Has cargo make a program. What stood in its place goes first: should cargo put it elsewhere all
# the same, nobody runs or ships an old one.
cargo_makes() { # PROGRAM WORDS-OF-CARGO...
    rm -f "$1"
    patiently "building ${1##*/}" cargo "${@:2}" || return
    [ -x "$1" ] || die "cargo built $1 in another place: a config.toml of cargo's that is not this\
 clone's sets build.target"
}
