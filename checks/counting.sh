# For the checks that count, which source this file: how many have passed, and how many have failed.

passed=0
failed=0

# check NAME COMMAND..: counts the command as passed or failed.
check() {
    local name=$1
    shift
    if "$@"; then
        passed=$((passed + 1))
    else
        failed=$((failed + 1))
        echo "checks/${0##*/}: FAILED: $name" >&2
    fi
}

# ends NAME STATUS LINE COMMAND..: whether the command ends with the status and, on standard error, with this line of `said_by` alone, or
# nothing where the line is empty. Its standard output is left in the file `output`.
ends() {
    local name=$1 status=$2 line=$3 got
    shift 3
    "$@" >output 2>said
    got=$?
    check "$name: status $got, $(cat said)" test "$got" = "$status" -a "$(cat said)" = "${line:+$said_by: $line}"
}

# with_reason NAME STATUS LINE FILE COMMAND..: whether the command ends with the status and this line, and tells on a second line the file's
# name and a reason of the system. Its standard output is left in the file `output`.
with_reason() {
    local name=$1 status=$2 line=$3 file=$4 got
    shift 4
    "$@" >output 2>said
    got=$?
    check "$name: status $got, $(cat said)" test "$got" = "$status" -a "$(head -n 1 said)" = "$said_by: $line" -a "$(wc -l <said)" = 2
    check "$name: why" grep -q "^$said_by: $file: [A-Z].* (os error [0-9]*)$" said
}

# The last line, and the status of the script.
counted() {
    echo "checks/${0##*/}: $passed passed, $failed failed"
    [ "$failed" = 0 ] && [ "$passed" -gt 0 ]
}
