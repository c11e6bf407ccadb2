# What a script of tests/ begins with: `. "$(dirname "$0")/lib.sh"`. It gives the root of the checkout, a room that is removed at
# the end, and a count of what passed and failed. Such a script ends with `finish`, unless it says its last line by itself.
set -u
root=$(cd "$(dirname "${BASH_SOURCE[0]}")/.." && pwd -P) || exit 1
room=$(mktemp -d) || exit 1
trap 'rm -rf "$room"' EXIT
passed=0 failed=0

# check WHAT COMMAND..: counts whether the command ends with 0.
check() {
    local what=$1
    shift
    if "$@"; then
        passed=$((passed + 1))
    else
        failed=$((failed + 1))
        printf 'FAILED: %s\n' "$what"
    fi
}

# finish: the last line, 'N passed, M failed', and the end, with 0 only where none failed.
finish() {
    echo "$passed passed, $failed failed"
    [ "$failed" -eq 0 ]
    exit
}
