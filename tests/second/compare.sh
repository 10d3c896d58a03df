#!/bin/sh
# Compares a listing program with the second one on inputs made from seeds, in
# ten rounds of 500, and reports a count. It stops behind a round that differs,
# and begins one only within the first SECONDS, of which 1 is the least, so that
# a slow machine compares fewer inputs, but never none.
#
# usage: compare.sh SECONDS PROGRAM [ARGUMENT...]
set -u
[ $# -ge 2 ] || { echo "usage: compare.sh SECONDS PROGRAM [ARGUMENT...]" >&2; exit 2; }
seconds=$1
shift
here=$(dirname "$0")
. "$here/build.sh"
inputs=$(mktemp -d) || exit 2
trap 'rm -rf "$inputs"' EXIT
began=$(date +%s)
seed=0
differ=0
status=0
while [ "$status" -eq 0 ] && [ "$seed" -lt 10 ] && [ $(($(date +%s) - began)) -lt "$seconds" ]; do
    seed=$((seed + 1))
    "$second" generate "$seed" 500 "$inputs" || exit 2
    if ! report=$(sh "$here/check.sh" "$inputs" "$@"); then
        status=1
        printf 'seed %s:\n%s\n' "$seed" "$report"
        differ=$((differ + $(printf '%s\n' "$report" | grep -c '^differs: ')))
    fi
done
echo "$((seed * 500)) seeded inputs compared with the second implementation, $differ differences"
exit "$status"
