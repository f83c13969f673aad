# shellcheck shell=bash
# Sourced by the scripts before they leave their caller's folder. TRAY_LIB (the folder of libtray.a) and RUST_SRC (the folder of the Rust's files) are
# relative to whoever set them; where they are set, they are absolute from here on.
for folder in TRAY_LIB RUST_SRC; do
    [ -z "${!folder:-}" ] || export "$folder=$(realpath -m -- "${!folder}")"
done
if [ -n "${TRAY_LIB:-}" ] && [ ! -f "$TRAY_LIB/libtray.a" ]; then
    echo "${0##*/}: there is no libtray.a in $TRAY_LIB, which TRAY_LIB names" >&2
    exit 1
fi
