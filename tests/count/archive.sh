# shellcheck shell=sh disable=SC2154,SC2034
# Read by the scripts beside it, behind bin/kit.sh: the library's archives, and what compiles and links.
out=target/count
mkdir -p $out
# archive CRATE: makes $out/libCRATE.a, the archive by which C calls CRATE: the static library CRATE_c, of which rt lib proves no more
# than has changed.
archive() {
    (cd "crates/$1_c" && rt lib) >$out/log 2>&1 || { cat $out/log >&2; exit 1; }
    cp "crates/$1_c/out/lib$1_c.a" "$out/lib$1.a"
}
# compile SOURCE OBJECT FLAG..: for x86-64, by the kit's clang, which brings no headers of its own, or by CC=..
compile() {
    source=$1 object=$2
    shift 2
    if [ -n "${CC:-}" ]; then
        # shellcheck disable=SC2086 # a compiler with its arguments
        $CC -std=gnu11 -O2 "$@" -c "$source" -o "$object"
    else
        "$tools/bin/clang" --target=x86_64-unknown-linux-gnu -nostdinc -isystem tests/count/shim -std=gnu11 -O2 "$@" -c "$source" -o "$object"
    fi
}
# freestanding PROGRAM FILE..: of these objects and archives, a program that needs nothing but start.c.
freestanding() {
    program=$1
    shift
    compile tests/count/start.c $out/start.o -ffreestanding -fno-builtin -fno-pic -fno-stack-protector -fno-asynchronous-unwind-tables
    "$tools/bin/ld.lld" -static --gc-sections -o "$program" $out/start.o "$@"
}
