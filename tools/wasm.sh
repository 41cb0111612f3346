# shellcheck shell=bash disable=SC2154 # tools/kit.sh and who sources this have what is not set here
# WebAssembly of a library's module. It is sourced after tools/kit.sh.

# The kit's linker is one program for every kind of file, and goes by its name.
wasm_link() { # OUT WORDS...
    [ -e "$work/wasm-ld" ] || ln -s "$kit/toolchain/bin/ld.lld" "$work/wasm-ld"
    "$work/wasm-ld" --no-entry --stack-first -z stack-size=262144 --strip-all --export=__heap_base "${@:2}" -o "$1"
}

wasm_object() { # OUT WORDS...
    "$kit/toolchain/bin/clang" --target=wasm32-unknown-unknown -mbulk-memory -O3 -ffreestanding "${@:2}" -o "$1"
}

# The product of 128 bits, for which the compiler asks: the library's products of two words become
# such products.
wasm_product() { # OUT
    wasm_object "$1" -std=c11 -Wall -Wextra -Werror -c hosts/js/wasm/multi3.c
}

# The functions that the library has for others, as its module names them.
exported_names() {
    sed -n 's/^define .*@\(tb_[a-z0-9_]*\)(.*/\1/p' "$work/native.ll" | LC_ALL=C sort -u
}

# Compiles the module for wasm32 and links it: every function of the header, the memory, where the
# caller's part of it begins, and the top of the stack. It imports nothing. The stack is the first
# of memory, so that what would run past its end stops, and touches nothing. The instructions are
# selected the fast way: by the other LLVM 22.1.8 makes a module that node refuses.
wasm_library() { # OUT
    local name words=(--export=__stack_pointer)
    portable_module
    pointers_as_words <"$work/native.ll" >"$work/mended.ll"
    wasm_object "$work/library.o" -mllvm -fast-isel -Wno-override-module -c -x ir "$work/mended.ll"
    wasm_product "$work/multi3.o"
    while read -r name; do words+=("--export=$name"); done < <(exported_names)
    wasm_link "$1" "${words[@]}" "$work/library.o" "$work/multi3.o"
}

# That product alone, for its test.
wasm_product_alone() { # OUT
    wasm_product "$work/multi3.o"
    wasm_link "$1" --export=__multi3 "$work/multi3.o"
}
