# Which tools make programs for x86-64 on this machine, and what runs them. speed/run and compare/header/run read this file; die is theirs.
# shellcheck shell=sh disable=SC2034

# need TOOL REASON: ends where the tool is not there.
need() {
    command -v "$1" >/dev/null 2>&1 || die "$1 is not in PATH: $2"
}

# tools_for PROCESSOR: sets prefix, with which the tools' names begin, and emulator. The processor is this machine's own, where both are
# empty, or x86_64 where it is another.
tools_for() {
    prefix='' emulator=''
    [ "$1" != "$(uname -m)" ] || return 0
    prefix=x86_64-linux-gnu- emulator='qemu-x86_64 -L /usr/x86_64-linux-gnu'
    need "${prefix}gcc" 'programs are compiled for x86-64 (Debian: apt install gcc-x86-64-linux-gnu)'
    need qemu-x86_64 'programs for x86-64 run in it on this processor (Debian: apt install qemu-user)'
}
