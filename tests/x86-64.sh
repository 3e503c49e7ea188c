# Sourced by the tests that link target/staticlib/libmirror.a, which is x86-64 code. Sets `root`, `library`, CC, RUSTC and TARGET, and gives
# `run PROGRAM ..`: directly on x86-64, elsewhere under an emulator. On an Arm machine with Debian the compilers are these packages:
#   dpkg --add-architecture amd64 && apt-get update
#   apt-get install -y --no-install-recommends gcc-x86-64-linux-gnu libc6-dev-amd64-cross qemu-user rustc libstd-rust-dev:amd64
root=$(cd "$(dirname "${BASH_SOURCE[0]}")/.." && pwd)
library=$root/target/staticlib/libmirror.a
TARGET=x86_64-unknown-linux-gnu
if [ "$(uname -m)" = x86_64 ]; then
    CC=${CC:-cc} RUSTC=${RUSTC:-rustc} QEMU=
else
    # A rustc of the user's own may lack the x86-64 standard library that Debian's package gives to Debian's.
    CC=${CC:-x86_64-linux-gnu-gcc} RUSTC=${RUSTC:-/usr/bin/rustc}
    QEMU=${QEMU:-qemu-x86_64}
fi

run() {
    ${QEMU:+"$QEMU"} "$@"
}

"$root/mirror" archive
