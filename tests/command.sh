#!/bin/sh
# Tries bin/listing as somebody at a bench would: the worked job, from a file and from standard input, by the proved build where one
# stands and without proof; and a file that is not there, a directory, two files, and neither a proved build nor a kit on the path, each
# of which must say what to do and end with a status that is not 0. Prints a line for each fault.
set -u
cd "$(dirname "$0")/.." || exit 2
faults=0
fault() { echo "bin/listing: $*"; faults=$((faults + 1)); }
said=$(mktemp -d) || exit 2
trap 'rm -rf "$said"' EXIT
job=crates/listing/stdin due=crates/listing/stdout

listed() { # WHAT: standard output is the worked listing
    cmp -s "$said/out" "$due" || fault "$1: not the worked listing"
}
bin/listing $job >"$said/out" 2>"$said/err" || fault "a job in a file: status $?"
listed 'a job in a file'
bin/listing <$job >"$said/out" 2>"$said/err" || fault "a job on standard input: status $?"
listed 'a job on standard input'

# A copy without the crates' out/ has no proved build, and must say that it runs without proof.
copy=$said/copy
mkdir "$copy" && tar -c --no-wildcards-match-slash --exclude='crates/*/out' bin crates crates.txt | tar -x -C "$copy" || exit 2
"$copy/bin/listing" $job >"$said/out" 2>"$said/err" || fault "a fresh copy: status $?"
listed 'a fresh copy'
grep -q 'not proved' "$said/err" || fault "a fresh copy: it does not say that it is not proved"

refused() { # WHAT COMMAND..: nothing on standard output, a sentence on standard error, a status that is not 0
    what=$1
    shift
    if "$@" >"$said/out" 2>"$said/err"; then fault "$what: status 0"; fi
    [ ! -s "$said/out" ] || fault "$what: something on standard output"
    [ -s "$said/err" ] || fault "$what: not a word on standard error"
}
refused 'a file that is not there' bin/listing "$said/none"
refused 'a directory' bin/listing "$said"
refused 'two files' bin/listing $job $job
PATH=/usr/bin:/bin command -v rt >/dev/null || refused 'no kit on the path' env PATH=/usr/bin:/bin "$copy/bin/listing" $job

[ "$faults" -eq 0 ] && echo "bin/listing answers as it should"
