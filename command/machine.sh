# shellcheck shell=bash
# shellcheck disable=SC2034 # `runner` is for who sources this
# How a program runs on this machine. The toolchain compiles for x86-64, where a program runs by itself. On another processor it runs on an
# emulator, if there is one, which must find the C library for x86-64 (QEMU_LD_PREFIX). Sourced.

# runner_for PROGRAM: sets `runner`, the words that go before the program's path; none for what this machine runs by itself
runner_for() {
    runner=()
    if [ "$(uname -m)" != x86_64 ] && [ "$(head -c 4 "$1" | tail -c 3)" = ELF ]; then
        command -v qemu-x86_64 >/dev/null || return 1
        runner=(qemu-x86_64)
    fi
}
