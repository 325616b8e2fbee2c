#!/bin/sh
# The proved archive is for x86-64. On another machine the host is built for x86-64 as well and runs under an emulator; this installs what
# that takes, from Debian: Rust with its x86-64 library, a C cross compiler with its library, the emulator and the libraries that it loads.
set -eu
[ "$(uname -m)" != x86_64 ] || exit 0
if [ -d "$(/usr/bin/rustc --print target-libdir --target x86_64-unknown-linux-gnu 2>/dev/null || echo none)" ] \
    && command -v qemu-x86_64 >/dev/null && command -v x86_64-linux-gnu-gcc >/dev/null; then
    exit 0
fi
echo 'installing the tools to build and run x86-64 programs on this machine'
log=build/tools.log
mkdir -p build
if ! {
    dpkg --add-architecture amd64
    apt-get update
    apt-get install -y --no-install-recommends \
        rustc-web libstd-rust-web-dev:amd64 gcc-x86-64-linux-gnu libc6-dev-amd64-cross libc6:amd64 qemu-user
} >"$log" 2>&1; then
    tail -n 5 "$log" >&2
    echo "the tools could not be installed (this takes root and Debian's packages); $log has the whole story" >&2
    exit 1
fi
