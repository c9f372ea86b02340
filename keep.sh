# Sourced by `reference`, `compose` and `cellstate`: runs a program and keeps what it writes, to be looked at and then
# handed on: the program's own status says only whether it read and wrote all. They set before: `here`, the folder of
# this file; `program`, the program's name; `reads` and `writes`, the words for its input and its output in messages;
# for `print_whole`, `nothing`, what is said where the output is empty.

say() {
    printf '%s: %s\n' "$program" "$*" >&2
}

fail() {
    say "$*"
    exit 2
}

child=''
end() {
    [ -z "$child" ] || kill "$child" 2>/dev/null
    exit "$1"
}

# Makes the folder $kept, which goes when the script ends.
open_kept() {
    (exec 3<&0) 2>/dev/null || fail "the $reads could not be read: standard input is closed"
    (exec 3>&1) 2>/dev/null || fail "the $writes could not be written: standard output is closed"
    kept=$(mktemp -d) || fail "the $writes could not be kept: no temporary folder"
    trap 'rm -rf "$kept"' EXIT
    trap 'end 129' HUP
    trap 'end 130' INT
    trap 'end 143' TERM
}

# Program and `cat` run in the background: a shell sees a signal while it waits, and not while it runs a command. In the
# background a command has no standard input but by another number.
start_program() {
    exec 3<&0
    "$here/run" "$program" <&3 3<&- >"$kept/out" &
    child=$!
    exec 3<&-
}

hand_on() {
    # where nobody reads any more, a write fails then; else the system would end the script, which has still to say so
    trap '' PIPE
    cat "$kept/out" &
    child=$!
    wait "$child" || fail "the $writes could not be written to its end"
}

# whether a text ends in a line feed: nothing is left of a last byte that is one
is_whole() {
    [ -z "$(tail -c 1 "$1")" ]
}

# Runs a program that writes a text, hands it on, and looks at its end: `last` is then the last line, and `cut` what is to
# be said where that is none.
print_whole() {
    open_kept
    start_program
    wait "$child"
    hand_on
    cut="the $writes stops before its last line"
    [ -s "$kept/out" ] || fail "$nothing"
    is_whole "$kept/out" || fail "$cut"
    last=$(tail -n 1 "$kept/out")
}
