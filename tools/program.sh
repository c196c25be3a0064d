# What a script beside a proved program does: it builds the program once, and runs it so that no failure stays unsaid. A script sets `name`, its own
# for messages, and `root`, the checkout's folder, and reads this file. So do those that build in the checkout for other ends: compare/run, speed/run.
# shellcheck shell=sh disable=SC2154

# die MESSAGE: one line on standard error, and status 2.
die() {
    printf '%s: %s\n' "$name" "$*" >&2
    exit 2
}

# put FORMAT WORD..: printf, which ends the script where standard output does not take it: a shell goes on.
put() {
    # shellcheck disable=SC2059
    printf "$@" 2>/dev/null || die 'cannot write standard output'
}

# tell_help: what the script's own `help` prints, on standard output, and no more is done. A reader may have enough of it.
tell_help() {
    help 2>/dev/null
    case $? in
    0) exit 0 ;;
    141) exit 141 ;;
    *) die 'cannot write standard output' ;;
    esac
}

# input_open, output_open: standard input is there, and output. The number of a closed one may be given to the next file that the shell, or on another
# processor the emulator, opens for itself: the program would then read or write that file.
input_open() {
    (: 3<&0) 2>/dev/null || die 'cannot read standard input: it is closed'
}

output_open() {
    (: 3>&1) 2>/dev/null || die 'cannot write standard output: it is closed'
}

# read_from FILE: standard input is the file's from here on. It is opened once, since it may be a pipe.
read_from() {
    [ -e "$1" ] || die "there is no file $1"
    [ ! -d "$1" ] || die "cannot read $1: it is a folder"
    [ -r "$1" ] || die "cannot read $1"
    exec <"$1"
}

# build PROGRAM: it is there, proved, and no older than its sources. The stamp is as old as the last build that nothing has changed since.
build() {
    program=$root/target/bin/$1 stamp=$root/target/$1-built
    ! is_built || return 0
    command -v rt >/dev/null 2>&1 || die "the program is not built, and rt of the Rattle kit, which builds it, is not in PATH"
    lock_target
    is_built || prove "$1"
    unlock_target
}

is_built() {
    [ -x "$program" ] && [ -e "$stamp" ] && [ -z "$(newer_sources)" ]
}

# newer_sources: what was changed after the stamp. What rt makes stands in out/ beside a crate's sources, and is none; with it the crate's folder changes.
newer_sources() {
    cd "$root/crates" || return
    find . ../crates.txt \( ! -name . -type d ! -path './*/*' -o -path './*/out' ! -path './*/*/out' -prune \) -o -newer "$stamp" -print
}

# lock_target: until unlock_target no other script builds in this checkout: what they build they copy to one target/.
lock_target() {
    command -v flock >/dev/null 2>&1 || die "flock, which keeps two builds apart, is not in PATH"
    mkdir -p "$root/target" 2>/dev/null || die "cannot build the program: $root/target cannot be made"
    (: >>"$root/target/build-lock") 2>/dev/null || die "cannot build the program: $root/target cannot be written"
    exec 9>>"$root/target/build-lock"
    flock -n 9 || wait_for_lock
}

wait_for_lock() {
    printf '%s: another build is under way in this checkout; waiting for it\n' "$name" >&2
    flock 9 || die 'cannot lock target/build-lock'
}

unlock_target() {
    exec 9>&-
}

# prove PROGRAM: minutes of silence would look like a hang, so that each crate that is proved is told.
prove() {
    printf '%s: proving and building the program first, which takes some minutes\n' "$name" >&2
    (: >"$stamp.new") 2>/dev/null || die "cannot build the program: $stamp.new cannot be written"
    (: >"$root/target/$1-build.log") 2>/dev/null || die "cannot build the program: $root/target/$1-build.log cannot be written"
    made_of=$(crates_of "$1") proved=0
    for each in $made_of; do
        make_crate "$each" >>"$root/target/$1-build.log" 2>&1 || die "the program was not built: target/$1-build.log says why"
        proved=$((proved + 1))
        printf '%s: %s of %s crates\n' "$name" "$proved" "$(printf '%s\n' "$made_of" | wc -l)" >&2
    done
    put_built "crates/$1/out/$1" "target/bin/$1" 2>/dev/null || die "rt run left no crates/$1/out/$1: remove that folder and try again"
    mv "$stamp.new" "$stamp" || exit 2
}

# crates_of CRATE: the crates of the repository that it is made of, each after those that it leans on, so that it comes last itself.
crates_of() {
    awk -v asked="$1" '
        function visit(crate,    i, n, named) {
            if (!(crate in needs) || crate in seen) return
            seen[crate]
            n = split(needs[crate], named, " ")
            for (i = 1; i <= n; i++) visit(named[i])
            print crate
        }
        { sub(/#.*/, "") }
        i = index($0, ":") { split($0, words, /[: ]/); needs[words[1]] = substr($0, i + 1) }
        END { visit(asked) }' "$root/crates.txt"
}

# make_crate CRATE: it is proved and built, and what it leans on before it. rt also runs a program, which has nothing to read here.
make_crate() {
    if [ -e "$root/crates/$1/src/main.rt" ]; then
        (cd "$root/crates/$1" && rt run) </dev/null
    else
        (cd "$root/crates/$1" && rt lib) </dev/null
    fi
}

# put_built FILE TARGET: what rt made is there under another name too, and as it was where nothing has changed.
put_built() {
    cmp -s "$root/$1" "$root/$2" && return
    mkdir -p "$root/${2%/*}" && cp -f "$root/$1" "$root/$2.new" && mv -f "$root/$2.new" "$root/$2"
}

# make_program PROGRAM: target/bin/PROGRAM. make_archive: target/staticlib/libnavuloqu.a. For those who have locked target/.
make_program() {
    make_crate "$1" && put_built "crates/$1/out/$1" "target/bin/$1"
}

make_archive() {
    make_crate navuloqu_c && put_built crates/navuloqu_c/out/libnavuloqu_c.a target/staticlib/libnavuloqu.a
}

# run PROGRAM: the script ends as the program did. A note that it makes on standard error is told.
run() {
    find_emulator
    exec 3>&1
    said=$(execute "$root/target/bin/$1" 2>&1 >&3 3>&-)
    status=$?
    exec 3>&-
    case $status:$said in
    "0:$1: note: "*) printf '%s\n' "$said" >&2 ;;
    *) judge ;;
    esac
    exit 0
}

# judge: by `status` and by what a program `said` on standard error. That is told, and is a failure: a program of the kit sets no exit status. A reader that
# has enough of the output ends the script quietly, as it does others.
judge() {
    [ "$status:$said" != 0: ] || return 0
    ! is_enough || exit 141
    [ -z "$said" ] || printf '%s\n' "$said" >&2
    case $status in
    0) exit 2 ;;
    141) exit 141 ;;
    *) die "the program ended with status $status" ;;
    esac
}

# is_enough: the reader of the output is gone. A program of the kit hears no signal then and says so, and the script ends as by the signal, unless who
# started it wants to be told: then the signal is ignored here too.
is_enough() {
    case $said in
    *': cannot write standard output: Broken pipe') ! sh -c 'kill -s PIPE $$' 2>/dev/null ;;
    *) false ;;
    esac
}

# find_emulator: programs are for x86-64. A kit for another processor has an emulator, its loader and its C library beside the compiler.
find_emulator() {
    emulator=''
    [ "$(uname -m)" != x86_64 ] || return 0
    command -v rt >/dev/null 2>&1 || die 'on this processor the program needs the emulator of the Rattle kit, and rt is not in PATH'
    emulator=$(dirname "$(rt doc)")/on/$(uname -m)/toolchain
    [ -x "$emulator/bin/qemu-x86_64" ] || die "the kit has no emulator for this processor at $emulator"
}

# execute FILE: after find_emulator.
execute() {
    (become "$1")
}

# become FILE: the same, and the shell that calls it is the program from there on.
become() {
    [ -n "$emulator" ] || exec "$1"
    exec "$emulator/bin/qemu-x86_64" "$emulator/lib/ld-linux-x86-64.so.2" --library-path "$emulator/lib" "$1"
}
