# shellcheck shell=bash
# To be sourced. Our static libraries are x86-64 code, so what links them is built for x86-64: on another
# processor by Debian's cross compiler and by a Rust that has that target's library, and run under qemu.
# Sets CC and run, the word before a program; cargo and pkg-config read the exported variables.
CC=cc run=''
if [ "$(uname -m)" != x86_64 ]; then
    CC=x86_64-linux-gnu-gcc run=qemu-x86_64
    export PKG_CONFIG_LIBDIR=/usr/lib/x86_64-linux-gnu/pkgconfig
    export CARGO_BUILD_TARGET=x86_64-unknown-linux-gnu
    export CARGO_TARGET_X86_64_UNKNOWN_LINUX_GNU_LINKER=$CC
    export CARGO_TARGET_X86_64_UNKNOWN_LINUX_GNU_RUNNER=$run
    # Under the emulator a program that was not optimised runs far longer than optimising it takes, and vectors do not pay.
    export CARGO_PROFILE_DEV_OPT_LEVEL=1 CARGO_PROFILE_DEV_DEBUG=0 CARGO_INCREMENTAL=0
    export RUSTFLAGS="${RUSTFLAGS:-} -Cno-vectorize-loops -Cno-vectorize-slp"
    while read -r rustc; do
        if [ -d "$("$rustc" --print target-libdir --target $CARGO_BUILD_TARGET 2>/dev/null)" ]; then
            export RUSTC=$rustc PATH=${rustc%/*}:$PATH
            break
        fi
    done < <(type -aP rustc)
fi

# Whether TOOL.. are there, with what runs a program that they make.
have() {
    local tool
    for tool in "$@" "$CC" ${run:+"$run"}; do
        command -v "$tool" >/dev/null || { missing=$tool; return 1; }
    done
    [ -z "$run" ] || [ -n "${RUSTC:-}" ] || { missing="Rust for $CARGO_BUILD_TARGET"; return 1; }
}

# A step that cannot run for want of something says so, and its status is 3.
leave_out() { # STEP WHAT
    echo "$1: no $2; left out"
    exit 3
}
