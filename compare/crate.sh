# shellcheck shell=sh disable=SC2154
# Sourced by compare/run and bench/run, which say `program`, their name, and `here`, their folder: where the crate, the
# library and what is built are, what must be there, and the build.
MF4_RS=$(realpath -m "${MF4_RS:-$here/../../shared/docs/src}")
MF4_LIB=$(realpath -m "${MF4_LIB:-$here/../build/libmf4.a}")
OUT=$(realpath -m "${OUT:-$here/../build/$program}")
export MF4_RS MF4_LIB

# The library is x86-64 code. On another processor Debian's compiler builds for x86-64, since its standard library for that
# can be had, and Debian's emulator runs what was built: the kit's stops where a Rust program starts.
built=$OUT
emulator=""
if [ "$(uname -m)" != x86_64 ]; then
    RUSTC=/usr/bin/rustc
    CARGO_BUILD_TARGET=x86_64-unknown-linux-gnu
    CARGO_TARGET_X86_64_UNKNOWN_LINUX_GNU_LINKER=x86_64-linux-gnu-gcc
    CARGO_ENCODED_RUSTFLAGS=--sysroot=$OUT/rust/usr
    export RUSTC CARGO_BUILD_TARGET CARGO_TARGET_X86_64_UNKNOWN_LINUX_GNU_LINKER CARGO_ENCODED_RUSTFLAGS
    built=$OUT/$CARGO_BUILD_TARGET
    emulator="qemu-x86_64 -L /usr/x86_64-linux-gnu"
fi

fail() {
    echo "$program: $1" >&2
    exit 2
}

# need_crate "WHY" [PACKAGE..]: everything that a build takes, and those packages; why is said before any is installed. No
# network is used beyond Debian's own, whose packages have the sources of the crates that mf4-rs stands on.
need_crate() {
    command -v cargo >/dev/null || fail "cargo and rustc are needed"
    [ -f "$MF4_RS/src/parsing/decoder.rs" ] || fail "MF4_RS must name the folder of mf4-rs 3.8.0, not $MF4_RS"
    [ -f "$MF4_LIB" ] || fail "there is no archive $MF4_LIB"
    [ -z "$emulator" ] || set -- "$@" rustc-web gcc-x86-64-linux-gnu libc6-dev-amd64-cross qemu-user
    "$here/../tests/install" "$@" librust-byteorder-dev librust-serde-dev librust-serde-derive-dev librust-thiserror-dev
    [ -z "$emulator" ] || "$here/../tests/unpack" "$1" libstd-rust-web-dev amd64 "$OUT/rust"
}

# Runs cargo in the program's folder, with the arguments given. The lock names the versions that Debian has now; an old one
# would ask for versions that are gone.
build() {
    rm -f "$here/Cargo.lock"
    (cd "$here" && CARGO_TARGET_DIR="$OUT" cargo "$@") >&2
    rm -f "$here/Cargo.lock"
}
