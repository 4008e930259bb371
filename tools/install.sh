#!/usr/bin/env bash
# Builds what is to be used elsewhere and puts it under a prefix: tools/install.sh install PREFIX [DESTDIR]. DESTDIR stands in front
# of the prefix while files are put in place, and is no part of what they say. tools/install.sh uninstall PREFIX [DESTDIR] takes away
# what was put there.
set -euo pipefail

cd "$(dirname "${BASH_SOURCE[0]}")/.."
prefix=$2
case $prefix in /*) ;; *) prefix=$PWD/$prefix ;; esac
root=${3:-}$prefix
film=rust/film/target/release/film
rowlist=crates/rowlist/out/rowlist
version=$(sed -n 's/^version = "\(.*\)"$/\1/p' rust/film/Cargo.toml | head -n 1)
documents=(README.md LICENSE CHANGELOG.md docs/FORMAT.md)

# The pkg-config file.
describe() {
    cat <<END
prefix=$prefix
libdir=\${prefix}/lib
includedir=\${prefix}/include

Name: dairyhour
Description: Lists every raster row that can have been sent over a line that drops bits
Version: $version
Libs: -L\${libdir} -ldairyhour
Cflags: -I\${includedir}
END
}

# Builds the tool; on an account without cargo, as root may be, what was built before is taken.
build_film() {
    if [ -x "$film" ] && ! command -v cargo >/dev/null; then
        echo "There is no cargo, so $film is taken as it was built." >&2
        return
    fi
    echo "Building the tool film:"
    tools/film-cargo.sh build --release --quiet
    echo "  $film"
}

put() {
    tools/prove.sh
    build_film
    install -d "$root/lib/pkgconfig" "$root/include" "$root/bin" "$root/share/doc/dairyhour"
    install -m 644 crates/dairyhour/out/libdairyhour.a "$root/lib/"
    install -m 644 include/dairyhour.h "$root/include/"
    describe >"$root/lib/pkgconfig/dairyhour.pc"
    install -m 755 "$film" "$rowlist" "$root/bin/"
    install -m 644 "${documents[@]}" "$root/share/doc/dairyhour/"
    if command -v help2man >/dev/null; then
        install -d "$root/share/man/man1"
        tools/man.sh "$root/share/man/man1" "$film" "$version"
    else
        echo "There is no help2man, so there are no man pages." >&2
    fi
    echo "Installed under $root."
    case $prefix in
        /usr | /usr/local) ;;
        *) echo "For pkg-config: export PKG_CONFIG_PATH=$prefix/lib/pkgconfig" ;;
    esac
}

# Takes the files away, and the folder that has no others.
take() {
    local name
    rm -f "$root/lib/libdairyhour.a" "$root/include/dairyhour.h" "$root/lib/pkgconfig/dairyhour.pc" "$root/bin/film" "$root/bin/rowlist"
    for name in $(tools/man.sh names); do
        rm -f "$root/share/man/man1/$name.1"
    done
    for name in "${documents[@]}"; do
        rm -f "$root/share/doc/dairyhour/${name##*/}"
    done
    rmdir "$root/share/doc/dairyhour" 2>/dev/null || true
    echo "Taken away from $root."
}

case $1 in
    install) put ;;
    uninstall) take ;;
    *)
        echo "usage: tools/install.sh install|uninstall PREFIX [DESTDIR]" >&2
        exit 2
        ;;
esac
