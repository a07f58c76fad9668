# For scripts of this folder, on a machine that is not x86-64: how to compile, link and run an x86-64 program with what the kit has and
# an emulator of this machine's. Not run with this kit, which is for x86-64.
. tools/kit.sh
emulator=$(command -v qemu-x86_64)
loader=$toolchain/lib/ld-linux-x86-64.so.2

# The kit's compiler has no headers of its own. Those of this machine's compiler fit: they ask the compiler for each size.
compile_x86_64() { # SOURCE OBJECT [WORDS...]
    source=$1 object=$2
    shift 2
    "$toolchain/bin/clang" --target=x86_64-unknown-linux-gnu -std=c11 -O2 -fPIC -Wall -Wextra -Werror -Iinclude \
        -nostdinc -isystem "$(cc -print-file-name=include)" "$@" -c "$source" -o "$object"
}

link_x86_64() { # PROGRAM FILE...
    program=$1
    shift
    "$kit/bin/rattle-link" --target x86_64-unknown-linux-gnu --toolchain "$toolchain" -o "$program" "$@"
}

run_x86_64() { # PROGRAM
    "$emulator" "$loader" --library-path "$toolchain/lib" "$1"
}
