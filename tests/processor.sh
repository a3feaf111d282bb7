# shellcheck shell=sh
# Sourced: which processor this is, what compiles C and Rust for x86-64 there and runs it, and how a test says what it leaves out.
# The kit's programs and archive are x86-64 code. FFN_MACHINE stands in for the machine's own name.
machine=${FFN_MACHINE:-$(uname -m)}

is_x86_64() { [ "$machine" = x86_64 ]; }

# The gate repeats these lines at its end.
skip() { echo "skipped: $*"; }

# Sets what `compile` calls, or says that WHAT is left out.
c_compiler() { # WHAT
    compiler=${CC:-cc}
    ! is_x86_64 || return 0
    compiler='x86_64-linux-gnu-gcc -static'
    command -v x86_64-linux-gnu-gcc >/dev/null ||
        { skip "$1: nothing here compiles C for x86-64 (Debian's gcc-x86-64-linux-gnu and libc6-dev-amd64-cross do)"; return 1; }
}

compile() { # ARG..
    # shellcheck disable=SC2086
    $compiler -Wall -Wextra -Werror -std=c11 -O2 "$@"
}

# What runs a program that is linked with Debian's x86-64 libraries: on x86-64 nothing has to. The kit's emulator crashes on Rust's.
emulator=''
is_x86_64 || emulator=qemu-x86_64

# Has cargo build for x86-64 and run what it built, or says that WHAT is left out. It sets the environment, so it is called in a shell of its own.
rust_for_x86_64() { # WHAT
    ! is_x86_64 || return 0
    target=x86_64-unknown-linux-gnu
    for tool in x86_64-linux-gnu-gcc "$emulator" /usr/bin/rustc; do
        command -v "$tool" >/dev/null || { skip "$1: no $tool (tests/setup installs it)"; return 1; }
    done
    [ -d "$(/usr/bin/rustc --print target-libdir --target "$target")" ] ||
        { skip "$1: no Rust library for x86-64 (Debian's libstd-rust-web-dev:amd64)"; return 1; }
    export CARGO_BUILD_TARGET=$target RUSTC=/usr/bin/rustc RUSTDOC=/usr/bin/rustdoc
    export CARGO_TARGET_X86_64_UNKNOWN_LINUX_GNU_LINKER=x86_64-linux-gnu-gcc
    # FFN_EMULATOR is for tests that start the command themselves.
    export CARGO_TARGET_X86_64_UNKNOWN_LINUX_GNU_RUNNER="$emulator" FFN_EMULATOR="$emulator"
}
