# What the tests in shell share; sourced. `work` is a folder of the test's own. Whatever ends the test, what it started
# is ended too.
work=$(mktemp -d)
trap '{ kill $(jobs -p) || true; wait; } 2>/dev/null; rm -rf "$work"' EXIT
trap 'exit 130' INT
trap 'exit 143' TERM

# ends STATUS TEXT COMMAND..: the command ends with that status within ten seconds, and says the text; `passed` counts
passed=0
ends() {
    local status=0 wanted=$1 text=$2
    shift 2
    # bash obeys a signal while it waits for a command beside it, not while it runs one
    timeout 10 "$@" >"$work/said" 2>&1 &
    wait $! || status=$?
    if [ "$status" != "$wanted" ] || ! grep -q -- "$text" "$work/said"; then
        echo "'$*' ended with $status, wanted $wanted and '$text'; it said:" >&2
        cat "$work/said" >&2
        exit 1
    fi
    passed=$((passed + 1))
}

# waits until FILE has been written
written() {
    for _ in $(seq 100); do [ -s "$1" ] && return; sleep 0.05; done
    echo "$1 was not written" >&2
    exit 1
}
