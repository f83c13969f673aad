# shellcheck shell=bash
# Sourced by tests/power, tests/power-faults and tests/power-loss/soak, after tests/common.sh.

# The programs to try: the one that TRAY_WORKER names (`tray` is the command, any other has the words of host/folder's example), or that example and, where
# Debian's crates are installed, the command.
workers() {
    if [ -n "${TRAY_WORKER:-}" ]; then
        realpath "$TRAY_WORKER"
        return
    fi
    (cd host/folder && CARGO_TARGET_DIR=../target cargo build --quiet --release --example worker)
    realpath host/target/release/examples/worker
    if debian_crates > /dev/null; then
        (cd host/cli && CARGO_TARGET_DIR=../target cargo build --quiet --release)
        realpath host/target/release/tray
    fi
}

# At the end of a test: where the command could not be built it was not tried, and the test says so.
tried() {
    local missing
    [ -n "${TRAY_WORKER:-}" ] || missing=$(debian_crates) || skip "in part: Debian's librust-$missing-dev is not installed, to try the command; nothing is wrong elsewhere"
}

# trials WORKER COUNT SEED [first]: in memory where there is room, so that no storage is waited for.
trials() {
    local kept folder status=0
    kept=target/tests/$(basename "$0")
    rm -rf "$kept"
    mkdir "$kept"
    [ target/tests/recorder.so -nt tests/power-loss/recorder.c ] || preloaded recorder tests/power-loss/recorder.c
    folder=$(mktemp -d -p "$([ -w /dev/shm ] && echo /dev/shm || echo target/tests)" tray-power.XXXXXX)
    PYTHONDONTWRITEBYTECODE=1 python3 tests/power-loss/trial.py "$1" "$PWD/target/tests/recorder.so" "$(realpath "$folder")" "$kept" "${@:2}" || status=$?
    rm -rf "$folder"
    return $status
}
