# shellcheck shell=sh disable=SC2034
# Read by other scripts: where the kit is, its compiler and linker, and its C library and loader. What rt builds of a program,
# crates/NAME/out/NAME, is for x86-64 and runs without any of them.
command -v rt >/dev/null || { echo "rt, the command of the Rattle kit, is not on the path: add the kit's bin folder to PATH" >&2; exit 2; }
kit=$(cd "$(dirname "$(readlink -f "$(command -v rt)")")/.." && pwd -P)
tools=$kit/toolchain
library=$tools/lib
loader=$library/ld-linux-x86-64.so.2
