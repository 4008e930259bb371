#!/usr/bin/env bash
# Prints the names of the Debian packages that the tool film is built from (tools/packages.sh crates), or those of all packages that
# are missing on this machine, for everything that 'make test' does (tools/packages.sh missing).
set -u

crates=(librust-clap-dev librust-clap-derive-dev librust-flate2-dev librust-image-dev librust-indicatif-dev
    librust-plotters-bitmap-dev librust-plotters-dev librust-png-dev librust-signal-hook-dev librust-tiff-dev librust-weezl-dev)

missing() {
    local package
    command -v make >/dev/null || echo make
    command -v cargo >/dev/null || echo cargo
    command -v rustc >/dev/null || echo rustc
    command -v pkg-config >/dev/null || echo pkg-config
    command -v help2man >/dev/null || echo help2man
    # Rust links with the C compiler, and tests compile C.
    if ! command -v cc >/dev/null || ! command -v gcc >/dev/null || [ ! -e /usr/include/stdio.h ]; then
        echo gcc libc6-dev
    fi
    command -v dpkg-query >/dev/null || return 0
    for package in "${crates[@]}"; do
        [ "$(dpkg-query -W -f '${db:Status-Status}' "$package" 2>/dev/null)" = installed ] || echo "$package"
    done
}

case ${1:-} in
    crates) echo "${crates[*]}" ;;
    missing) missing ;;
    *)
        echo "usage: tools/packages.sh crates|missing" >&2
        exit 2
        ;;
esac
