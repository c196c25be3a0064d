# What speed/run builds, all of it under target/speed. speed/run reads this file after tools/program.sh and tools/x86_64.sh; root, here, work,
# oscillators, pitches, names and files are its own.
# shellcheck shell=sh disable=SC2086,SC2154

# logged WHAT COMMAND..: what the command prints goes to the log, and only its failure is told.
logged() {
    what=$1
    shift
    "$@" >>"$work/log" 2>&1 </dev/null || die "$what is not built: see target/speed/log"
}

# compile_for PROCESSOR: looks for all that is needed. The processor is this machine's own, or x86_64 where it is another; then programs run in
# an emulator.
compile_for() {
    out=$work/$1
    mkdir -p "$out" || exit 2
    [ "$1" != x86_64 ] || need rt 'it proves and builds the archive and the renderer'
    tools_for "$1"
    cc=cc nm=${prefix}nm
    if [ "$emulator" ]; then
        cc=${prefix}gcc
        clang=$(dirname "$(rt doc)")/on/$(uname -m)/toolchain/bin/clang
        [ -x "$clang" ] || die "the kit has no clang for this processor, which compiles the Rust for x86-64: looked for $clang"
    fi
    need cc 'it compiles the programs that measure'
    need $nm 'it says what a panic of the Rust would call'
    need rustc 'it compiles the ported Rust'
    find_original
}

# The ported Rust is taken where it stands, by a link.
find_original() {
    source=${NAVULOQU_SOURCE:-$root/../shared/docs/src}
    [ -f "$source/src/oscillator/oscillator.rs" ] ||
        die "the ported Rust is not there: looked for src/oscillator/oscillator.rs in $source;" \
            "set NAVULOQU_SOURCE to the folder that holds src/oscillator and src/utils"
    source=$(cd "$source/src" && pwd -P) || exit 2
    ln -sfn "$source" "$work/original" || exit 2
}

# rust_object FILE PREFIX: the object PREFIX.o of FILE.rs.
rust_object() {
    object=$out/$2.o ir=$out/$2.ll
    export PREFIX="$2"
    set -- rustc --edition 2021 -C opt-level=3 -C codegen-units=1 --crate-type lib --crate-name "$2" "$here/$1.rs"
    if [ -z "$emulator" ]; then
        logged 'the Rust' "$@" --emit=obj -o "$object"
    else
        logged 'the Rust' "$@" --emit=llvm-ir -C no-prepopulate-passes -o "$ir"
        to_x86_64 "$ir" "$object"
    fi
}

# to_x86_64 IR OBJECT: rustc on another processor has no library for x86-64. Its IR before any pass is that for x86-64 but for the lines that
# name the target and the attributes that speak of the processor, and the kit's clang, of the same LLVM, compiles it.
to_x86_64() {
    target='--target=x86_64-unknown-linux-gnu -march=x86-64'
    {
        "$clang" $target -x c /dev/null -S -emit-llvm -o - | grep '^target '
        grep -v '^target ' "$1" | sed -E 's/"target-cpu"="[^"]*"/"target-cpu"="x86-64"/; s/"(target-features|frame-pointer)"="[^"]*"//g'
    } >"$1.x86_64" 2>>"$work/log"
    logged 'the Rust for x86-64' "$clang" $target -O3 -fPIC -x ir "$1.x86_64" -c -o "$2"
}

# c_program CC PROGRAM FILE..
c_program() {
    compiler=$1 made=$2
    shift 2
    logged "${made#"$root/"}" $compiler -std=gnu11 -O2 -Wall -Wextra -o "$made" "$@" -lm
}

# panics OBJECT..: a C file with what a panic of the Rust would call. Rust's library is not linked, so that the Rust can stand in a program
# twice; no panic comes, and one would end the program.
panics() {
    printf '#include <stdlib.h>\n'
    "$nm" -u "$@" | awk '$2 ~ /^(_R|_ZN|rust_)/ && !seen[$2]++ {
        printf "void panic%d(void) __asm__(\"%s\");\nvoid panic%d(void) { abort(); }\n", NR, $2, NR
    }'
}

# build_bench [ARCHIVE]: the Rust twice, the archive, and the objects and archives that were named.
build_bench() {
    rust_object oscillators rust
    rust_object oscillators again
    panics "$out/rust.o" "$out/again.o" >"$out/bench.panics.c"
    implementations=$(printf 'X(%s) ' rust again ${1:+navuloqu} $names)
    c_program $cc "$out/bench" "-DIMPLEMENTATIONS(X)=$implementations" "$here/bench.c" "$out/bench.panics.c" "$out/rust.o" "$out/again.o" ${1:+"$1"} $files
}

# The archive, proved and compiled for x86-64.
build_archive() {
    lock_target
    logged libnavuloqu.a make_archive
    unlock_target
    archive=$root/target/staticlib/libnavuloqu.a
}

# The renderer, proved; the Rust's; and the lists that they are run on.
build_renderers() {
    lock_target
    logged 'the renderer' make_program renderer
    unlock_target
    rust_object renderer rust_renderer
    panics "$out/rust_renderer.o" >"$out/rust_renderer.panics.c"
    c_program $cc "$out/rust_renderer" "$out/rust_renderer.panics.c" "$out/rust_renderer.o"
    c_program cc "$work/lists" "$here/lists.c"
    for oscillator in $oscillators all; do
        for pitch in $pitches; do
            "$work/lists" "$oscillator" "$pitch" >"$work/$oscillator.$pitch.jobs" || die 'the job lists are not made'
        done
    done
}

# build_counter PROGRAM: valgrind counts instructions, or a plugin of the emulator, which takes only one of its own version of the interface. The
# program is one to try it on.
build_counter() {
    if [ -z "$emulator" ]; then
        need valgrind 'its callgrind counts instructions'
        return
    fi
    for version in 1 2 3 4 5; do
        c_program cc "$work/count.so" -shared -fPIC -DVERSION=$version "$here/count.c"
        $emulator -d plugin -plugin "$work/count.so" "$1" </dev/null 2>&1 | tee -a "$work/log" | grep -q '^Collected' && return
    done
    die 'the emulator takes no plugin that counts: see target/speed/log'
}
