# SPDX-License-Identifier: MIT
# What .ci/run and tests/run share: they run commands that end with a line `N passed, M failed`, or `N passed, M failed,
# K skipped`, and add up these lines.
# shellcheck shell=bash
shopt -s lastpipe
passed=0 failed=0 skipped=0 last=""
COUNTS='^([0-9]+) passed, ([0-9]+) failed(, ([0-9]+) skipped)?$'

# show NAME: shows what such a command says, which comes by standard input, with its name before the counts.
show() {
    local line
    last=""
    while IFS= read -r line || [ -n "$line" ]; do
        last=$line
        [[ $line =~ $COUNTS ]] && line="$1: $line"
        printf '%s\n' "$line"
    done
}

# count NAME STATUS: adds the counts of what was shown. A command that ends without them, or with a bad status and no
# failure, counts as one failure.
count() {
    if [[ $last =~ $COUNTS ]] && { [ "$2" = 0 ] || [ "${BASH_REMATCH[2]}" != 0 ]; }; then
        passed=$((passed + BASH_REMATCH[1])) failed=$((failed + BASH_REMATCH[2])) skipped=$((skipped + ${BASH_REMATCH[4]:-0}))
    else
        failed=$((failed + 1))
        echo "$1: failed, with status $2"
    fi
}

# part COMMAND ..: runs such a command.
part() {
    "$@" | show "${*##*/}"
    count "${*##*/}" "${PIPESTATUS[0]}"
}

# total: shows the sums, and succeeds if nothing failed.
total() {
    local more=""
    [ "$skipped" = 0 ] || more=", $skipped skipped"
    echo "$passed passed, $failed failed$more"
    [ "$failed" = 0 ]
}
