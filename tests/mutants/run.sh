#!/bin/sh
# Tries wrong definitions, one at a time, and says what refuses each. On demand, outside the gate.
#
# usage: tests/mutants/run.sh [NAME...]        NAME: a file NAME.edit of this folder; none: all of them
#
# A mutant is an edit as in crates/*/must-fail, with files named from the repository's root: `file:`, `old:`, `new:`. It is applied
# to a copy of the crates in a temporary folder, so that nothing of the tree is altered. There `rt check` proves the mutated crate
# first, then the libraries that rest on it, and the first refusal ends the trial. Ahead of each the same crate is proved as it
# stands, in a second copy and once a run, since a crate that is not proved unchanged shows nothing. rt begins with what it kept of
# the same crates, so that only what a mutant changes is proved again; a tree of which nothing is kept is proved once.
#
# It prints for each mutant: its name, a class, the crate, the file and line of the first error and what is refused there.
#   a      a claim over worked examples is false (a file of $worked has an error)
#   b      a theorem's or a function's proof fails
#   c      not refused by anything: a hole
#   bad    the edit fits no text, the definition is no longer well formed, or rt could not tell: it shows nothing
# The last line is 'N mutants, A refused by a claim, B by a proof, C not refused'. The status is 0 where none is c or bad.
set -u
cd "$(dirname "$0")/../.." || exit 2
here=$PWD/tests/mutants
worked='^[a-z_]*/specs/Laws/Examples\.antt:\|^agreement/specs/Laws/Table\.antt:'
command -v rt >/dev/null || { echo "rt, the command of the Rattle kit, is not on the path" >&2; exit 2; }
work=$(mktemp -d) || exit 2
trap 'rm -rf "$work"' EXIT
trap 'exit 130' HUP INT TERM

copy() { # INTO: the crates as they stand
    mkdir "$work/$1" && tar -c --no-wildcards-match-slash --exclude='crates/*/out' crates crates.txt | tar -x -C "$work/$1" || exit 2
}

# The libraries that rest on $1, the crate itself first, in an order in which each follows what it rests on: that of crates.txt, but
# ahead of others those that are quick and have tables of examples. A program has no definitions, and a static library only passes
# calls on.
soon='image_rows image_row image_check text_words text_reader'
above() {
    reached=$(awk -v of="$1" '
        { sub(/#.*/, "") }
        /:/ {
            split($0, part, ":")
            split(part[1], head, " ")
            rests = head[1] == of
            n = split(part[2], dep, " ")
            for (i = 1; i <= n; i++) if (dep[i] in reached) rests = 1
            if (rests) reached[head[1]]
            if (rests && part[1] !~ /staticlib/) printf "%s ", head[1]
        }' crates.txt)
    order=" $1 "
    for c in $soon $reached; do
        [ -f "crates/$c/src/lib.rt" ] || continue
        case $order in *" $c "*) continue ;; esac
        case " $reached" in *" $c "*) order="$order$c " ;; esac
    done
    echo "$order"
}

# Applies an edit to the copy; says what is wrong with it, if anything.
edited() { # EDIT
    f='' old='' pairs=0
    while IFS= read -r line || [ -n "$line" ]; do
        case $line in
        'file: '*) f=${line#file: } ;;
        'old: '*) old=${line#old: } ;;
        'new:'*)
            new=${line#new:}
            new=${new# }
            case $f in crates/*/specs/*.antt) ;; *) echo "no file of definitions: $f"; return ;; esac
            [ -f "$work/tried/$f" ] || { echo "no such file: $f"; return; }
            OLD=$old NEW=$new awk '
                { text = text $0 "\n" }
                END {
                    old = ENVIRON["OLD"]; new = ENVIRON["NEW"]
                    if (old == "") exit 3
                    at = index(text, old)
                    if (!at) exit 3
                    rest = substr(text, at + length(old))
                    if (index(rest, old)) exit 4
                    printf "%s%s%s", substr(text, 1, at - 1), new, rest
                }' "$work/tried/$f" >"$work/edited" || { echo "an 'old:' text does not stand once in $f"; return; }
            cp "$work/edited" "$work/tried/$f"
            old='' pairs=$((pairs + 1))
            ;;
        esac
    done <"$1"
    [ "$pairs" -gt 0 ] || echo "it has no pair of 'old:' and 'new:'"
}

check() { # COPY CRATE
    (cd "$work/$1/crates/$2" && rt check) >"$work/said" 2>&1 </dev/null
}

# The first thing that the last check said of an error, or its last line.
first_said() { { grep -m 1 ': error: ' "$work/said" || tail -n 1 "$work/said"; } | cut -c 1-200; }

# Whether a crate is proved as it stands.
stands() { # CRATE
    case $standing in *" $1 "*) return 0 ;; esac
    [ -d "$work/plain" ] || copy plain
    check plain "$1" && standing="$standing$1 "
}
standing=' '

# Checks the crates from $crate on in the copy with the edit applied; sets class and where, or leaves class empty.
try() { # EDIT
    file=$(sed -n 's/^file: //p' "$1" | head -n 1)
    crate=${file#crates/}
    crate=${crate%%/*}
    for c in $(above "$crate"); do
        stands "$c" || { class=bad where="$c: not proved as it stands: $(first_said)"; return; }
        check tried "$c" && continue
        status=$?
        [ "$status" -eq 1 ] || { class=bad where="$c: status $status of rt: $(first_said)"; return; }
        # an error that only says what was not looked at, since it rests on something refused, tells nothing of its own
        errors=$(grep -o '^[^ ]*: error: [^:]*' "$work/said" | grep -v ': error: [0-9]* declaration' | sed "s|^\./|$c/|; s|: error: | |")
        class=a at=$(printf '%s\n' "$errors" | grep "$worked" | head -n 1)
        [ -n "$at" ] || { class=b at=$(printf '%s\n' "$errors" | head -n 1); }
        [ -n "$at" ] || at=$(grep -m 1 ': not proved\|: no proof' "$work/said")
        own=$(printf '%s\n' "$errors" | grep -F "$(sed -n 's/^file: crates\///p' "$1")" | head -n 1)
        [ -z "$own" ] || { class=bad at=$own; }
        [ -n "$at" ] || { class=bad at=$(first_said); }
        where="$c: ${at#"$c"/}"
        return
    done
}

if [ $# -eq 0 ]; then
    for e in "$here"/*.edit; do set -- "$@" "$(basename "$e" .edit)"; done
fi
n=0 as=0 bs=0 cs=0 bads=0
for label; do
    label=$(basename "$label" .edit)
    edit=$here/$label.edit
    [ -f "$edit" ] || { echo "no mutant $label" >&2; exit 2; }
    began=$(date +%s)
    copy tried
    class='' where=$(edited "$edit")
    if [ -n "$where" ]; then class=bad; else try "$edit"; fi
    rm -rf "$work/tried"
    [ -n "$class" ] || class=c where='not refused'
    n=$((n + 1))
    case $class in a) as=$((as + 1)) ;; b) bs=$((bs + 1)) ;; c) cs=$((cs + 1)) ;; *) bads=$((bads + 1)) ;; esac
    printf '%-34s %-3s %s (%s s)\n' "$label" "$class" "$where" "$(($(date +%s) - began))"
done
[ "$bads" -eq 0 ] || echo "$bads of them bad: they show nothing"
echo "$n mutants, $as refused by a claim, $bs by a proof, $cs not refused"
[ "$cs" -eq 0 ] && [ "$bads" -eq 0 ]
