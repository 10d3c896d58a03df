#!/bin/sh
# Bytes of stack, by painting: the same library and compiler as count.sh, and its freestanding harness. A benchmark and no test.
set -eu
cd "$(dirname "$0")/../.."
. bin/kit.sh
. tests/count/archive.sh
for crate in bench bench_schedule; do archive $crate; done
compile tests/count/stack.c $out/stack.o -ffreestanding -fno-pic -fno-stack-protector -fno-asynchronous-unwind-tables -mno-red-zone
freestanding $out/stack $out/stack.o $out/libbench.a $out/libbench_schedule.a
$out/stack
