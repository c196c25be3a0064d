# How compare/header/run builds a program, each in a folder of the room, and what it holds it to. The variables are those of header/run.
# shellcheck shell=sh disable=SC2086,SC2154

# run FOLDER WORD..: the program that was built in this folder of the room.
run() {
    folder=$1
    shift
    $emulator "$room/$folder/program" "$@"
}

# compile FOLDER INCLUDED COMPILER..: the objects of the program, without a warning, and with a header of this folder.
compile() {
    folder=$1 included=$2
    shift 2
    mkdir -p "$room/$folder" || exit 2
    for file in program calls starts waves; do
        "$@" -Wall -Wextra -Wpedantic -Wconversion -Werror -I"$included" -c -o "$room/$folder/$file.o" "$here/$file.c" 2>"$room/told" ||
            wrong "$folder: $file.c is not compiled:" "$room/told"
    done
}

# link_program FOLDER COMPILER..
link_program() {
    folder=$1
    shift
    made=$room/$folder
    "$@" -o "$made/program" "$made/program.o" "$made/calls.o" "$made/starts.o" "$made/waves.o" "$archive" 2>"$room/told" ||
        die "$folder: the program is not linked: $(tail -n 1 "$room/told")"
}

# agrees FOLDER INPUT EXPECTED WORD..: the program of the folder prints what is expected; the first word says of what.
agrees() {
    folder=$1 input=$2 expected=$3
    shift 3
    run "$folder" "$@" <"$input" >"$room/got" 2>"$room/told" || wrong "$folder, $*: the program ended with status $?:" "$room/told"
    cmp -s "$expected" "$room/got" && return
    [ "$1" = starts ] || wrong "$folder, $*: $("$compare" first-difference "$1" "$input" "$expected" "$room/got")"
    diff "$expected" "$room/got" >"$room/told"
    wrong "$folder, $*: what is expected and what it printed:" "$room/told"
}

agrees_with_all() {
    agrees "$1" "$calls/stdin" "$calls/stdout" calls
    agrees "$1" "$starts/stdin" "$room/recorded.lines" starts
    agrees "$1" "$waves/stdin" "$waves/stdout" waves
    agrees "$1" "$room/calls" "$room/calls.lines" calls
    agrees "$1" "$room/starts" "$room/starts.lines" starts
    agrees "$1" "$room/waves" "$room/waves.lines" waves
    tell "$1: $recorded recorded and $count fresh calls agree, $phases and $count phases and rates, $stems and $fresh_stems stems, and the starts"
}

# try NAME COMPILER LINKER FLAG..: a program is built and held to everything. The compiler's words say the language, and a linker would take
# its objects for that.
try() {
    name=$1 compiler=$2 linker=$3
    shift 3
    compile "$name" "$root/include" $compiler "$@"
    link_program "$name" $linker "$@"
    agrees_with_all "$name"
}
