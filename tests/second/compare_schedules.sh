#!/bin/sh
# Has a program make the calls of blocks that the second one makes from seeds,
# and reports a count: rounds of up to 30, at most 100 of them. The program is
# given a file of blocks as its last argument and must say `ok` of each and
# count them all. It stops behind a round that differs, and begins one only
# within the first SECONDS, of which 1 is the least, so that a slow machine
# compares fewer, but never none.
#
# usage: compare_schedules.sh SECONDS PROGRAM [ARGUMENT...]
set -u
[ $# -ge 2 ] || { echo "usage: compare_schedules.sh SECONDS PROGRAM [ARGUMENT...]" >&2; exit 2; }
seconds=$1
shift
here=$(dirname "$0")
. "$here/build.sh"
round=$(mktemp -d) || exit 2
trap 'rm -rf "$round"' EXIT
began=$(date +%s)
seed=0
total=0
differ=0
status=0
while [ "$status" -eq 0 ] && [ "$seed" -lt 100 ] && [ $(($(date +%s) - began)) -lt "$seconds" ]; do
    seed=$((seed + 1))
    "$second" schedules "$seed" 30 "$round/blocks" || exit 2
    made=$(grep -c '^== ' "$round/blocks") || exit 2
    total=$((total + made))
    sed -n 's/^== /ok /p' "$round/blocks" >"$round/ok"
    { cat "$round/ok" && echo "$made blocks, 0 differ"; } >"$round/due"
    if ! "$@" "$round/blocks" >"$round/said" || ! cmp -s "$round/said" "$round/due"; then
        status=1
        printf 'seed %s:\n' "$seed"
        grep -v '^ok ' "$round/said"
        differ=$(grep -cvxFf "$round/said" "$round/ok")
        [ "$differ" -gt 0 ] || differ=1
    fi
done
echo "$total seeded schedules compared with the second implementation, $differ differences"
exit "$status"
