# Read by scripts that count which of their expectations are met. It gives them `room`, a folder
# that is removed at their end.
passed=0
failed=0
room=$(mktemp -d)
trap 'rm -rf "$room"' EXIT

# WHAT COMMAND ..: counts whether the command succeeds.
expect() {
    local what=$1
    if "${@:2}"; then
        passed=$((passed + 1))
    else
        echo "failed: $what"
        failed=$((failed + 1))
    fi
}

# Prints the counts, and returns whether all were met.
counts() {
    echo "$passed passed, $failed failed"
    [ "$failed" = 0 ]
}
