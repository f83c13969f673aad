# shellcheck shell=bash
# Sourced by the tests. A test says `skipped: ..` in one line, and passes, where something it needs cannot be had.
set -euo pipefail
source "$(dirname "${BASH_SOURCE[0]}")/../tools/folders.sh"
cd "$(dirname "${BASH_SOURCE[0]}")/.."
mkdir -p target/tests

# `rt ci` refuses a link anywhere beneath the repository, so that a test leaves none. One that another test starts leaves that to the other.
if [ -z "${OUTER_TEST:-}" ]; then
    export OUTER_TEST=$0
    tests_leave=("$PWD/target/tests" "$PWD/host/target/tmp")
    trap 'find "${tests_leave[@]}" -type l -delete 2> /dev/null || true' EXIT
fi

skip() {
    echo "skipped: $*"
    exit 0
}

needs() {
    local tool
    for tool in "$@"; do
        command -v "$tool" > /dev/null || skip "$tool is not installed"
    done
}

# Exports TRAY_LIB, the folder of libtray.a: the one that is set, or the one that rt proves and builds.
library() {
    if [ -z "${TRAY_LIB:-}" ]; then
        needs rt
        tools/library > target/tests/staticlib.log 2>&1 || { tail -n 20 target/tests/staticlib.log; exit 1; }
        export TRAY_LIB=$PWD/target/staticlib
    fi
}

# Exports RUST_SRC, the folder of the Rust's files: the one that is set, or the one beside the repository. It fails where they are not there.
rust() {
    export RUST_SRC=${RUST_SRC:-${PWD%/*}/shared/docs/src}
    ls "$RUST_SRC"/*composite.rs* > /dev/null 2>&1
}

# compile OUT SOURCE.. [WORDS..]: C sources with the library.
compile() {
    local out=$1
    shift
    gcc -std=gnu11 -O2 -Wall -Wextra -Werror "$@" "$TRAY_LIB/libtray.a" -lm -o "target/tests/$out"
}

# preloaded NAME SOURCE: a library for LD_PRELOAD, target/tests/NAME.so.
preloaded() {
    gcc -std=gnu11 -O2 -Wall -Wextra -Werror -shared -fPIC "$2" -o "target/tests/$1.so"
}

# Whether Debian's crates are installed that the command is built with; the first that is not is printed.
debian_crates() {
    local crate
    for crate in anyhow clap indicatif png; do
        ls -d /usr/share/cargo/registry/$crate-[0-9]* > /dev/null 2>&1 || { echo "$crate"; return 1; }
    done
}
