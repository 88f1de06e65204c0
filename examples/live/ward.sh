#!/usr/bin/env bash
# A ward, a doctor and an office that talk through a dispatcher in another process.
# examples/live/ward.sh PROGRAM..   PROGRAM answers a script as it comes: ./defcon live
set -euo pipefail
coproc dispatcher { "$@"; }

# Writes a line, and reads up to the line that tells a reply.
call() {
    local line
    printf '%s\n' "$*" >&"${dispatcher[1]}"
    while read -r line <&"${dispatcher[0]}"; do
        case "$line" in [0-9]*" -> "*) reply="${line#* -> }"; return ;; esac
    done
    exit 1
}

printf '%s\n' 'defcon-script 1' 'unit 0 {|}' 'unit 1 {#0|}' 'unit 2 {|}' run >&"${dispatcher[1]}"
call 1 'sub bed?'
call 2 'sub bed?'
call 0 create
call 0 'add 0 {|} bed 12'
call 0 'add 0 {#0|} diagnosis "measles"'
call 0 'publish 0'
call 1 get
call 1 'read 0 diagnosis'
echo "doctor reads: $reply"
call 2 get
call 2 'read 0 diagnosis'
echo "office reads: $reply"
