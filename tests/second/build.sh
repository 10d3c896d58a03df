# shellcheck shell=sh disable=SC2034,SC2154
# Read by the scripts beside it: builds the second program, which is then $second, from the folder $here. Where there is no cargo, it
# installs Debian's.
PATH=$PATH${HOME:+:$HOME/.cargo/bin}
command -v cargo >/dev/null || apt-get install -y cargo-web rustc-web >&2 || exit 2
cargo build --quiet --release --manifest-path "$here/Cargo.toml" || exit 2
second=${CARGO_TARGET_DIR:-$here/target}/release/second
