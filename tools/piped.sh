# For tools/program and tools/retained, which read this file: what a program does with its input and output. They set
# `name`, what their messages begin with, and `program`, the file; `made` is a folder for what they write.
cd "$(dirname "$0")/.." || exit 1
made=target/$name
rm -rf "$made"
mkdir -p "$made"
mkfifo "$made/pipe"
passed=0
failed=0

# told WHAT: counts a test by the status of the command before it, and names it if it failed
told() {
    if [ "$?" -eq 0 ]; then
        passed=$((passed + 1))
    else
        echo "$name: $1"
        failed=$((failed + 1))
    fi
}

# due WHAT FILE: whether standard input is what the file holds
due() {
    cmp -s - "$2"
    told "$1: not what is due"
}

# on_pipe: runs the program on a pipe that stays open, to which standard input is written; it has ten seconds
on_pipe() {
    exec 5<>"$made/pipe"
    cat >&5
    timeout 10 "$program" <&5
    exec 5>&-
}

# fails WHAT STATUS: whether the last run said in one line that it cannot read or write, printed nothing and ended with 0
fails() {
    [ ! -s "$made/out" ] && [ "$(wc -l <"$made/said")" -eq 1 ] && grep -q "^${program##*/}: $1: ." "$made/said" &&
        [ "$2" -eq 0 ]
    told "$1: no message, something printed, or a status other than 0"
}

# failures FILE: input and output that fail, on a file that the program takes
failures() {
    : >"$made/out"
    $program </ >"$made/out" 2>"$made/said"
    fails 'standard input' $?
    $program <&- >"$made/out" 2>"$made/said"
    fails 'standard input' $?
    $program <"$1" >/dev/full 2>"$made/said"
    fails 'standard output' $?
    $program <"$1" >&- 2>"$made/said"
    fails 'standard output' $?
}

# reader_gone FILE: the same if nobody reads what it prints about a file
reader_gone() {
    : >"$made/out"
    exec 5<>"$made/pipe" 6>"$made/pipe" 5>&-
    $program <"$1" >&6 2>"$made/said"
    fails 'standard output' $?
    exec 6>&-
}

# ended: prints the counts, and fails if a test did
ended() {
    echo "$name: $passed passed, $failed failed"
    [ "$failed" -eq 0 ]
}
