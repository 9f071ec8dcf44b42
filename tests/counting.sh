# Sourced by the parts of the gate: tests that hold a command to its status, and to a file.
# shellcheck shell=bash
passed=0
failed=0
printed=$(mktemp)
trap 'rm -f "$printed"' EXIT

# holds NAME COMMAND..: COMMAND succeeds.
holds() {
    local name=$1
    shift
    if "$@"; then
        passed=$((passed + 1))
    else
        failed=$((failed + 1))
        echo "FAILED: $name"
    fi
}

# prints NAME FILE COMMAND..: COMMAND succeeds, and prints what FILE holds.
prints() {
    local name=$1 expected=$2
    shift 2
    if "$@" >"$printed" && cmp -s "$printed" "$expected"; then
        passed=$((passed + 1))
    else
        failed=$((failed + 1))
        echo "FAILED: $name printed:"
        head -c 1000 "$printed"
        echo
    fi
}

# ends STATUS COMMAND..: COMMAND ends with this status.
ends() {
    local status=$1
    shift
    "$@"
    [ $? -eq "$status" ]
}

# needs ARCHIVE: the names that an archive takes from outside.
needs() {
    nm -u "$1" | awk '$1 == "U" { print $2 }' | LC_ALL=C sort -u
}

summary() {
    echo "$passed passed, $failed failed"
    [ "$failed" -eq 0 ]
}
