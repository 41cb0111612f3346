# shellcheck shell=bash disable=SC2034 # what is set here is for who sources it
# What the scripts know of each processor, here and nowhere else. It is sourced by tools/shell.sh.

processors=(x86_64 aarch64 armv7 riscv64) # for which the library is compiled

# Whether a processor is one of these.
is_processor() { # PROCESSOR
    local one
    for one in "${processors[@]}"; do [ "$one" != "$1" ] || return 0; done
    return 1
}

# What Debian's compilers, and the folder of their C library, are called by.
gnu_name() { # PROCESSOR
    case $1 in armv7) echo arm-linux-gnueabihf ;; *) echo "$1-linux-gnu" ;; esac
}

# What clang calls Linux on it. On armv7 numbers with a fraction are passed in their own registers.
clang_target() { # PROCESSOR
    case $1 in armv7) echo armv7-unknown-linux-gnueabihf ;; *) echo "$1-unknown-linux-gnu" ;; esac
}

# What Rust calls it.
rust_target() { # PROCESSOR
    case $1 in riscv64) echo riscv64gc-unknown-linux-gnu ;; *) clang_target "$1" ;; esac
}

# The emulator of it.
emulator_name() { # PROCESSOR
    case $1 in armv7) echo qemu-arm ;; *) echo "qemu-$1" ;; esac
}

# What readelf calls it, as a pattern.
elf_name() { # PROCESSOR
    case $1 in x86_64) echo X86-64 ;; aarch64) echo AArch64 ;; armv7) echo 'ARM$' ;; riscv64) echo RISC-V ;; esac
}
