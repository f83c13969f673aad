# shellcheck shell=bash
# Sourced by the tests of the command `tray`, after common.sh: has it built, and what they ask of it. With TRAY_COMMAND=FILE they take that command, and the
# `wells` beside it, and do not end at what is wrong but list it.
needs cargo gcc python3
if [ -z "${TRAY_COMMAND:-}" ]; then
    missing=$(debian_crates) || skip "Debian's librust-$missing-dev is not installed (./demo installs it)"
fi
wrongs=0

# wrong WORDS.. : something is not as it should be.
wrong() {
    echo "$*"
    [ -n "${TRAY_COMMAND:-}" ] || exit 1
    wrongs=$((wrongs + 1))
}

# built FOLDER: sets tray, wells and here (the folder of this file), and enters an empty folder target/tests/FOLDER.
# shellcheck disable=SC2034 # the tests use them
built() {
    if [ -z "${TRAY_COMMAND:-}" ]; then
        library
        (cd host/cli && CARGO_TARGET_DIR=../target cargo build --quiet --release)
    fi
    tray=$(realpath "${TRAY_COMMAND:-host/target/release/tray}")
    wells=$(dirname "$tray")/wells
    here=$PWD/tests/host
    rm -rf "target/tests/$1"
    mkdir "target/tests/$1"
    cd "target/tests/$1" || exit 1
}

# ends CODE WORDS.. : the command's exit code; it may say what it likes.
ends() {
    local wanted=$1 code=0
    shift
    "$tray" "$@" > /dev/null 2>&1 || code=$?
    [ $code = "$wanted" ] || wrong "tray $* ends with $code and not with $wanted"
}

# says CODE LINE WORDS.. : the command must fail with this exit code and this one line. A job that must not be made is called `no`.
says() {
    local code=0 wanted="$1 $2" said
    shift 2
    said=$("$tray" "$@" 2>&1) || code=$?
    if [ $code = 0 ]; then rm -rf no; fi
    [ "$code $said" = "$wanted" ] || wrong "$(printf 'tray %s ends with and says\n%s\nand not\n%s' "$*" "$code $said" "$wanted")"
}

# same_list JOB OTHER LIST: whether a file is the same in both. Each job has a number of its own: of a mark the position is compared, of a description what
# is neither the number nor its own digest.
same_list() {
    case $3 in
        mark) cmp -s -n 8 "$1/mark" "$2/mark" ;;
        job) cmp -s <(grep -v '^number \|^job ' "$1/job") <(grep -v '^number \|^job ' "$2/job") ;;
        *) cmp -s "$1/$3" "$2/$3" ;;
    esac
}

# number JOB: its job number, as its description has it.
number() { sed -n 's/^number //p' "$1/job"; }

# nothing_left FOLDER.. : no file or folder under way is left there.
nothing_left() {
    [ -z "$(find "$@" -maxdepth 1 -name '.tray-*')" ] || wrong "left behind: $(find "$@" -maxdepth 1 -name '.tray-*' | tr '\n' ' ')"
}

# The end of a test: WORDS.. unless something was wrong.
finish() {
    [ "$wrongs" = 0 ] || { echo "$wrongs wrong"; exit 1; }
    echo "$*"
}
