#!/usr/bin/env bash
# Runs each program of examples/ that has an answer there, by `cilkm mean` and by `cilkm serial`, and compares. CILKM may name the program in
# place of the launcher.
# One line a case that fails; the last line is 'N passed, M failed', and the status is 0 where M is 0.
set -u

top=$(cd "$(dirname "$0")/.." && pwd)
program=${CILKM:-$top/cilkm}
passed=0
failed=0

for answer in "$top"/examples/*.answer; do
    source=${answer%.answer}.cilk
    for command in mean serial; do
        if [ "$("$program" $command <"$source")" = "$(cat "$answer")" ]; then
            passed=$((passed + 1))
        else
            failed=$((failed + 1))
            echo "examples: $command ${source##*/} ... FAILED"
        fi
    done
done

echo "$passed passed, $failed failed"
[ "$failed" = 0 ] && [ "$passed" -gt 0 ]
