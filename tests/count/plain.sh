#!/bin/sh
# Whether plain.c, the yardstick, is right: its listings are the stored ones, and it says of damaged images what the library says.
# With SECONDS its listings are compared for so long with those of the second implementation too. On demand, not in the gate.
#
# usage: [CC=gcc] plain.sh [SECONDS]
set -eu
cd "$(dirname "$0")/../.."
. bin/kit.sh
. tests/count/archive.sh
archive bench
for f in damaged plain; do compile tests/count/$f.c $out/$f.o -ffreestanding -fno-pic -fno-stack-protector; done
freestanding $out/damaged $out/damaged.o $out/plain.o $out/libbench.a
$out/damaged
${CC:-cc} -std=gnu11 -O2 -Wall -Wextra tests/count/plain.c tests/count/plain_listing.c -o $out/plain_listing
sh tests/second/check.sh crates/listing_vectors/data $out/plain_listing
if [ $# -gt 0 ]; then CARGO_TARGET_DIR=$PWD/target/second tests/second/compare.sh "$1" $out/plain_listing; fi
