#!/bin/sh
# Exact x86-64 instructions of one turn, one start, one image check, one fit, one turn of a schedule and one translation, by the library and
# by plain C: a run of N
# rounds and one of 2N, and their difference divided by N, so that everything but the rounds falls out. A benchmark and no test.
#
# The program is an ordinary one with the C library's memcpy, and valgrind counts; where there is none it is installed. Where that
# fails, the program is freestanding with the memcpy of start.c, and Debian's qemu-user counts.
#
# usage: [CC=gcc] [N=10] [WAY=emulated] [EMU=qemu-x86_64] count.sh [KIND...]
#     the kinds are those of bench.c, all of them unless some are named; CC, a compiler for x86-64, is the kit's clang and with
#     it the kit's C library unless it is set
set -eu
cd "$(dirname "$0")/../.."
. bin/kit.sh
. tests/count/archive.sh
# The rounds of the fit and the schedule are in archives of their own, so that in each the fit and the step have one caller and are laid
# into it, as in the product.
for crate in bench bench_fit bench_schedule; do archive $crate; done
archives="$out/libbench.a $out/libbench_fit.a $out/libbench_schedule.a"
way=${WAY:-native}
if [ "$way" = native ] && ! command -v valgrind >/dev/null && ! apt-get install -y valgrind >&2; then
    echo "count: valgrind is not here and could not be installed" >&2
    way=emulated
fi
compiler=$(${CC:-"$tools/bin/clang"} --version | head -n 1)

# the same code by every compiler: what some distributions switch on by default stays off
plainly="-fno-stack-protector -fcf-protection=none -fno-asynchronous-unwind-tables"
build_native() {
    # shellcheck disable=SC2086 # words
    for f in bench plain; do compile tests/count/$f.c $out/$f.o $plainly -fPIE; done
    if [ -n "${CC:-}" ]; then
        # shellcheck disable=SC2086 # a compiler with its arguments
        $CC -pie -o $out/bench $out/bench.o $out/plain.o $archives
        memory="this machine's C library, $(ldd --version | head -n 1)"
    else
        # shellcheck disable=SC2086 # words
        "$kit/bin/rattle-link" --target x86_64-unknown-linux-gnu --toolchain "$tools" -o $out/bench $out/bench.o $out/plain.o $archives 2>$out/log || { cat $out/log >&2; exit 1; }
        memory="the kit's C library, $("$loader" --version | head -n 1)"
    fi
    echo "count: native instructions, by $(valgrind --version)" >&2
}
build_emulated() {
    emulator=${EMU:-$(command -v qemu-x86_64 || true)}
    [ -n "$emulator" ] || { apt-get install -y qemu-user >&2; emulator=qemu-x86_64; }
    one=-singlestep
    if "$emulator" --help | grep -q one-insn-per-tb; then one=-one-insn-per-tb; fi
    # shellcheck disable=SC2086 # words
    for f in bench plain; do compile tests/count/$f.c $out/$f.o $plainly -ffreestanding -fno-pic; done
    # shellcheck disable=SC2086 # words
    freestanding $out/bench $out/bench.o $out/plain.o $archives
    memory="a loop of eight bytes at a time, start.c"
    echo "count: emulated instructions, by $("$emulator" --version | head -n 1)" >&2
}

# native ARGUMENT..: what each function executed itself, as lines NAME tab COUNT; of the C library the rounds call memcpy, memmove
# and memset alone, and all three are named memcpy. valgrind's processor has AVX2 and no AVX-512: under it glibc takes
# __memcpy_avx_unaligned_erms on every machine that has AVX2, where a newer one by itself would take an AVX-512 variant.
native() {
    program=$out/bench
    [ -n "${CC:-}" ] || set -- "$program" "$@"
    [ -n "${CC:-}" ] || program=$loader
    [ -n "${CC:-}" ] || set -- --library-path "$library" "$@"
    valgrind -q --tool=callgrind --compress-strings=no --compress-pos=no --callgrind-out-file=$out/callgrind "$program" "$@" || return 1
    awk '
        /^ob=/ { memory = /\/libc\.so/; next }
        /^fn=/ { name = memory ? "memcpy" : substr($0, 4); sub(/\047[0-9]+$/, "", name); next }
        /^calls=/ { inclusive = 1; next }
        /^[0-9]/ { if (!inclusive) c[name] += $2; inclusive = 0 }
        END { for (name in c) printf "%s\t%.0f\n", name, c[name] }' $out/callgrind
}
# The same of a program under the emulator, which logs every instruction: through a pipe, since the log has gigabytes.
emulated() {
    rm -f $out/pipe
    mkfifo $out/pipe
    awk '/^Trace/ { c[$NF]++ } END { for (name in c) printf "%s\t%.0f\n", name, c[name] }' $out/pipe &
    "$emulator" "$one" -d exec,nochain -D $out/pipe $out/bench "$@" || { kill $!; return 1; }
    wait $!
}
# count KIND ROUNDS WHO [plain]: the instructions of one round, by function, and in the file $out/total their sum and the memcpy in
# it. What stands around the rounds is shown and left out: some 10 instructions a round around the library's, more where the
# compiler has laid what is counted into the loop, and then the count is wrong. The fit is laid into bench_fit, which is therefore
# counted whole: some 8 instructions of it are the loop's; so is a step by value into bench_rounds, whose copies in and out are the
# step's own. A step in place begins each round with a copy of the state, a memcpy among it, that is the loop's.
count() {
    kind=$1 n=$2 who=$3
    shift 3
    for k in "$n" $((2 * n)); do
        $way "$kind" "$k" "$@" >$out/"$k" || { echo "count: bench $kind failed" >&2; exit 1; }
    done
    sort -t "$tab" -k 2,2nr $out/$((2 * n)) >$out/twice
    most=60
    loops='main|library_rounds|plain_rounds?|again|translations|make_pairs|all_made|library_schedule|plain_made|bench::.*'
    case $kind in
    *-by-value) ;;
    schedule-*) most=1000 ;; # the pairs are laid out and the records looked at in C
    send* | receive | select | close) loops="$loops|bench_rounds|mem(cpy|move|set)" ;;
    *) loops="$loops|bench_rounds" ;;
    esac
    awk -F '\t' -v n="$n" -v who="$who" -v loops="^($loops)\$" -v most="$most" -v total="$out/total" '
        FNR == NR { once[$1] = $2; next }
        $2 <= once[$1] { next }
        { v = ($2 - once[$1]) / n }
        $1 ~ loops { around[$1] = v; next }
        { t += v; printf "        %-36s %12.1f\n", $1, v }
        $1 ~ /^mem(cpy|move|set)$/ { m += v }
        END {
            printf "    %-40s %12.1f\n", who, t
            for (name in around) { a += around[name]; printf "        (around it: %s %.1f)\n", name, around[name] }
            if (who == "library" && a > most) print "count: the loop itself takes " a " instructions, so the count is not to be trusted" >"/dev/stderr"
            printf "%.1f %.1f\n", t, m >total
        }' $out/"$n" $out/twice
}
kind() { # kind KIND ROUNDS NAME [TURNS]: divided by the turns of a round
    case " $kinds " in "  " | *" $1 "*) ;; *) return 0 ;; esac
    echo "$3"
    count "$1" "$2" library
    library_total=$(cat $out/total)
    count "$1" "$2" 'plain C' plain
    echo "$library_total $(cat $out/total)" | awk -v name="$3" -v turns="${4:-1}" '
        function commas(v, s) {
            s = sprintf("%.0f", v)
            while (match(s, /[0-9][0-9][0-9][0-9]($|,)/)) s = substr(s, 1, RSTART) "," substr(s, RSTART + 1)
            return s
        }
        { printf "| %s | %s | %s | %s | %.2f |\n", name, commas($1 / turns), commas($2 / turns), commas($3 / turns), $1 / $3 }' >>$out/table
}
kinds="$*" rounds=${N:-10} tab=$(printf '\t')
"build_$way"
printf '| | library | of it memcpy | plain C | library / plain C |\n|---|---|---|---|---|\n' >$out/table
kind send "$rounds" 'send into a buffer of one, in place'
kind receive "$rounds" 'receive from a buffer of one, in place'
kind send-15 "$rounds" 'send to the 15th waiting, in place'
kind select "$rounds" 'select of 8 cases, the last one ready, in place'
kind close "$rounds" 'close that wakes 15, in place'
kind send-by-value "$rounds" 'send into a buffer of one, by value'
kind receive-by-value "$rounds" 'receive from a buffer of one, by value'
kind send-15-by-value "$rounds" 'send to the 15th waiting, by value'
kind select-by-value "$rounds" 'select of 8 cases, the last one ready, by value'
kind close-by-value "$rounds" 'close that wakes 15, by value'
kind start-4 "$rounds" 'start of an image of 4 rows'
kind turn-4 "$rounds" 'send as a whole turn, image of 4 rows'
kind turn-32 "$rounds" 'close that wakes 15 as a whole turn, image of 32 rows'
kind turn-1024 1 'send as a whole turn, image of 1,024 rows'
kind schedule-pair 100 'schedule of sends and receives, a turn' 2
kind schedule-select 100 'schedule of selects of 8, the last one ready, and receives, a turn' 2
kind schedule-waits "$rounds" 'start and schedule of 15 waits, image of 32 rows'
kind schedule-close "$rounds" 'the same and a close that wakes all 15'
kind check-4 "$rounds" 'check of an image of 4 rows'
kind check-64 "$rounds" 'check of an image of 64 rows of every kind'
kind check-1024 1 'check of an image of 1,024 rows, stops'
kind check-1024-sends 1 'check of an image of 1,024 rows, sends'
kind fit-2 "$rounds" 'fit of 2 tasks, nobody waiting'
kind fit-16 "$rounds" 'fit of 16 tasks, 15 waiting'
kind flat 1 'translation of 16,384 bytes, depth 0'
kind repeats 1 'translation of 16,384 bytes, six repeats deep'
kind selects 1 'translation of 16,384 bytes, six selects deep'
kind every-kind 1 'translation of 1,020 rows of every kind'
kind listing 1 "translation of the listing's job"
[ "$(wc -l <$out/table)" -gt 2 ] || { echo "count: no such kind: $kinds" >&2; exit 2; }
echo "$way; C by $compiler, -O2; memcpy: $memory"
cat $out/table
