#!/usr/bin/env bash
# Proves the library and builds crates/dairyhour/out/libdairyhour.a, and the program crates/rowlist/out/rowlist.
# Shows one line a crate that is not built yet, its name and the seconds it took. What the prover says goes to target/prove.log. Where
# both stand as they were proved and built, from the sources as they are, nothing is done, and the toolchain is not asked for.
set -u

cd "$(dirname "${BASH_SOURCE[0]}")/.." || exit 1
mkdir -p target
log=target/prove.log
proved=target/proved.sum
archive=crates/dairyhour/out/libdairyhour.a
rowlist=crates/rowlist/out/rowlist

# The sums of all sources.
sources() {
    find crates crates.txt -regex 'crates/[^/]*/out' -prune -o -type f -exec sha256sum {} + | sort -k 2
}

# Shows a line for each crate that rt reports as proved.
lines() {
    local line crate='' began=$SECONDS
    local named='^crate ([a-z0-9_]+): ' done='^logic=proved '
    while IFS= read -r line; do
        if [[ $line =~ $named ]]; then
            crate=${BASH_REMATCH[1]}
        elif [[ $line =~ $done ]] && [ -n "$crate" ]; then
            printf '  %-12s %d s\n' "$crate" "$((SECONDS - began))"
            crate='' began=$SECONDS
        fi
    done
}

# Runs rt in a crate's folder, and says where to look if something is not proved or built.
prove() {
    (cd "crates/$2" && rt "$1" </dev/null 2>&1) | tee -a "$log" | lines
    local status=${PIPESTATUS[0]}
    [ "$status" -eq 0 ] && [ -f "$3" ] && return
    echo "rt $1 in crates/$2 ended with status $status; $log says why. Its end:" >&2
    tail -n 20 "$log" | cut -c 1-300 >&2
    exit 1
}

before=$(sources)
if { echo "$before" && sha256sum "$archive" "$rowlist"; } 2>/dev/null | cmp -s - "$proved"; then
    echo "The library and rowlist are proved and built from these sources already."
    exit 0
fi
command -v rt >/dev/null || {
    echo "There is no rt on the path: the Rattle toolchain has to be installed first." >&2
    exit 1
}
rm -f "$proved"
: >"$log"
echo "Proving the library (the prover's own words go to $log):"
prove lib dairyhour "$archive"
echo "  $archive"
# It is run too, on no input.
prove run rowlist "$rowlist"
echo "  $rowlist"
# What was changed meanwhile is not proved.
[ "$(sources)" != "$before" ] || { echo "$before" && sha256sum "$archive" "$rowlist"; } >"$proved"
