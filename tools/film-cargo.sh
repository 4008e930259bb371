#!/usr/bin/env bash
# Runs cargo over the workspace of the tool `film`: tools/film-cargo.sh COMMAND [WORDS...]. Where Debian's packages of the
# crates that it uses are installed, cargo takes them from there and asks no registry; else it takes them from the registry.
set -u

top=$(cd "$(dirname "${BASH_SOURCE[0]}")/.." && pwd) || exit 1
debian=/usr/share/cargo/registry

# Is a version of each crate that is asked for there?
have_packages() {
    local crate
    for crate in clap-4 clap_derive-4 flate2-1 image-0.24 indicatif-0.17 plotters-0.3 plotters-bitmap-0.3 png-0.17 signal-hook-0.3 \
        tiff-0.7 weezl-0.1; do
        compgen -G "$debian/$crate.*" >/dev/null || return 1
    done
}

command=$1
shift
from=()
if have_packages; then
    from=(--offline --config 'source.crates-io.replace-with="debian"' --config "source.debian.directory=\"$debian\"")
fi
manifest=$top/rust/film/Cargo.toml
cargo "$command" --manifest-path "$manifest" --target-dir "$top/rust/film/target" "${from[@]}" "$@" && exit
status=$?
if [ "${#from[@]}" -eq 0 ] && ! cargo fetch --quiet --manifest-path "$manifest" 2>/dev/null; then
    echo "Where the Rust registry cannot be reached, Debian's packages serve: apt-get install $("$top/tools/packages.sh" crates)" >&2
fi
exit "$status"
