#!/bin/sh
# Runs every NAME.in of a directory through a listing program, compares what it
# prints with NAME.out, and reports each difference and a count.
#
# usage: check.sh DIR [PROGRAM [ARGUMENT...]]
# Without PROGRAM, `second list` is built and run.
set -u
[ $# -ge 1 ] || { echo "usage: check.sh DIR [PROGRAM [ARGUMENT...]]" >&2; exit 2; }
dir=$1
shift
if [ $# -eq 0 ]; then
    here=$(dirname "$0")
    . "$here/build.sh"
    set -- "$second" list
fi
printed=$(mktemp) || exit 2
trap 'rm -f "$printed"' EXIT
total=0
differ=0
for input in "$dir"/*.in; do
    [ -e "$input" ] || break
    total=$((total + 1))
    if ! "$@" < "$input" > "$printed" || ! cmp -s "$printed" "${input%.in}.out"; then
        differ=$((differ + 1))
        echo "differs: ${input##*/}"
        diff "${input%.in}.out" "$printed" | head -n 5
    fi
done
echo "$total inputs, $differ differ"
[ "$total" -gt 0 ] && [ "$differ" -eq 0 ]
