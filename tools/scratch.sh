# What a script does that writes a file: all that it makes stands in a folder beside that file until it is whole, and nothing is left where the script fails
# or is ended by a signal. A script reads this file after tools/program.sh.
# shellcheck shell=sh disable=SC2034,SC2154

# No folder yet, and nothing has worked.
scratch='' worked='' status=0

# set_target FILE: what is to be written, and its folder. A link stays, and the file is the one that it leads to. What is no file, as a device, is not replaced
# by one, nor is a file that may not be written, though its folder may. A name may end in a new line, which $(..) alone would take away.
set_target() {
    out=$1
    [ ! -d "$1" ] || die "cannot write $1: it is a folder"
    [ ! -e "$1" ] || [ -f "$1" ] || die "cannot write $1: it is no file"
    [ ! -e "$1" ] || [ -w "$1" ] || die "cannot write $1: that is not allowed"
    target=$(readlink -f -- "$1" && printf .) || die "cannot write $1: there is no such folder"
    target=${target%??}
    folder=${target%/*}/
    case $1 in
    */) die "cannot write $1: there is no such folder" ;;
    esac
    [ -d "$folder" ] || die "cannot write $1: there is no such folder"
    [ -w "$folder" ] || die "cannot write $1: nothing may be written in its folder"
}

# cannot_write: what failed has said why, after its last colon, or a signal ended it.
cannot_write() {
    said=${said##*: }
    die "cannot write $out: ${said:-what wrote it ended with status $status}"
}

# make_scratch FILE..: the folder, under a name that nothing else has, and these files in it, empty. What makes them hears no signal, which could end mktemp
# between making the folder and telling its name. The words of the system's tools, which are told where they fail, are the same in every language from here on.
make_scratch() {
    LC_ALL=C
    export LC_ALL
    trap remove_scratch EXIT
    trap 'end_by HUP' HUP
    trap 'end_by INT' INT
    trap 'end_by TERM' TERM
    scratch=$(
        trap '' HUP INT TERM
        mktemp -d "$folder.$name.XXXXXX" 2>&1
    ) || said=$scratch cannot_write
    said=$(
        trap '' HUP INT TERM
        cd "$scratch" && touch -- said "$@" 2>&1
    ) || cannot_write
}

# remove_scratch: whatever ends the script. Where no folder was made the variable holds nothing, or why.
remove_scratch() {
    trap '' HUP INT TERM
    case $scratch in
    "$folder.$name."*) rm -rf -- "$scratch" ;;
    esac
}

# end_by SIGNAL: what is at work is ended first, so that it makes nothing more in the folder.
end_by() {
    if [ "${!-}" != "$worked" ]; then
        kill -s KILL "$!" 2>/dev/null
        wait "$!" 2>/dev/null
    fi
    remove_scratch
    trap - EXIT "$1"
    kill -s "$1" $$
}

# work COMMAND..: it runs beside the shell, which hears a signal only while it waits, and reads descriptor 4, since such a command has no standard input. Sets
# `status`, and `said` to what it said on standard error.
work() {
    "$@" <&4 4<&- 2>"$scratch/said" &
    wait "$!" 2>/dev/null
    status=$? worked=$!
    said=$(cat "$scratch/said")
}

# put_target FILE: this file of the folder gets the name that was asked for, in one step, after all of it is on the disk: some file systems say only then that
# there was no room. From the step on no signal is heard, so that what a signal ends has changed nothing.
put_target() {
    work sync "$scratch/$1" 4</dev/null
    [ "$status" -eq 0 ] || cannot_write
    trap '' HUP INT TERM
    said=$(mv -fT -- "$scratch/$1" "$target" 2>&1) || cannot_write
}
