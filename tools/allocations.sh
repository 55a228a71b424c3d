#!/bin/sh
# Refuses each allocation of the programs that stand on desk and stage in turn, and shows that none
# changes an answer: the program ends with status 1 and has printed nothing. Variables: CC, CFLAGS.
set -eu
cd "$(dirname "$0")/.."

dir=$(mktemp -d)
trap 'rm -rf "$dir"' EXIT
# CFLAGS is a list of words.
# shellcheck disable=SC2086
"${CC:-cc}" -std=c99 -Wall -Wextra -Werror ${CFLAGS:--O2} -shared -fPIC tools/allocations.c \
    -o "$dir/allocations.so"

# run PROGRAM NUMBER: runs it on its stdin with that allocation refused, and keeps what it prints
run() {
    status=0
    REFUSE=$2 LD_PRELOAD=$dir/allocations.so "crates/$1/out/$1" <"crates/$1/stdin" \
        >"$dir/printed" 2>"$dir/said" || status=$?
}

for program in cuecheck waits rehearse rehearse_tickets; do
    (cd "crates/$program" && rt run <stdin >/dev/null 2>&1) || exit 2
    number=1
    run "$program" "$number"
    while grep -q '^allocation refused' "$dir/said"; do
        if [ "$status" -ne 1 ] || [ -s "$dir/printed" ]; then
            echo "FAIL  $program: without allocation $number it ends with $status and prints"
            cat "$dir/printed"
            exit 1
        fi
        number=$((number + 1))
        run "$program" "$number"
    done
    if [ "$number" -eq 1 ] || ! cmp -s "$dir/printed" "crates/$program/stdout"; then
        echo "FAIL  $program: it makes no allocation, or prints something else with all of them"
        exit 1
    fi
    echo "ok    $program: each of $((number - 1)) allocations refused"
done
