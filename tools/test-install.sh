#!/usr/bin/env bash
# Installs to a temporary folder, compiles the C program of the README there with pkg-config alone, and runs it: it must print
# what the README says. Then runs what else was installed, builds a Cargo project that depends on the library as the README says,
# installs again where nothing may be proved, and takes everything away.
set -eu

cd "$(dirname "${BASH_SOURCE[0]}")/.."
top=$PWD
work=$(mktemp -d)
trap 'rm -rf "$work"' EXIT

# The first block of a kind in the README that follows a line.
block() {
    awk -v after="$1" -v fence="\`\`\`$2" '
        index($0, after) { seen = 1 }
        inside && /^```$/ { exit }
        inside { print }
        seen && $0 == fence { inside = 1 }' "$top/README.md"
}

# The C program of the README, with what was installed.
try_c() {
    block '### From C' c >receiver.c
    block '### From C' text >expected.txt
    [ -s receiver.c ] && [ -s expected.txt ]
    export PKG_CONFIG_PATH=$work/usr/lib/pkgconfig
    # shellcheck disable=SC2046
    cc -std=c99 -Wall -Wextra -Werror -pedantic receiver.c $(pkg-config --cflags --libs dairyhour) -o receiver
    ./receiver >printed.txt
    diff expected.txt printed.txt
}

# The Rust program of the README, in a project of its own, which depends on the library by the line that the README has for it.
try_cargo() {
    mkdir -p project/src
    block '### From Rust' rust >project/src/main.rs
    {
        printf '[package]\nname = "project"\nversion = "0.1.0"\nedition = "2021"\n\n'
        block 'A Cargo project' toml | sed "s|path = \".*/rust/dairyhour\"|path = \"$top/rust/dairyhour\"|"
    } >project/Cargo.toml
    grep -q "path = \"$top/rust/dairyhour\"" project/Cargo.toml
    cargo run --quiet --offline --manifest-path project/Cargo.toml
}

# What was installed, by itself.
try_programs() {
    [ "$(printf '\000\013RSM\000\001\002\001\004\000\100\200\000\006\074' | "$work/usr/bin/rowlist" | tr '\n' ' ')" = 'count 2 36 39 ' ]
    [ "$("$work/usr/bin/film" row 52534D0001020104004080 6C 7 | tr '\n' ' ')" = 'count 1 36 ' ]
    printf 'P1\n8 1\n0 0 1 1 0 1 1 0\n' >film.pbm
    "$work/usr/bin/film" write film.pbm -o film.rsm
    "$work/usr/bin/film" drop film.pbm --burst 1 -o film.rx
    "$work/usr/bin/film" list film.rsm film.rx -o out.pbm
    "$work/usr/bin/film" check film.pbm out.pbm
}

# Every page has its sections, and says nothing that it lacks.
try_pages() {
    local page
    command -v help2man >/dev/null || return 0
    for page in $("$top/tools/man.sh" names); do
        for section in NAME SYNOPSIS DESCRIPTION EXAMPLES 'EXIT STATUS' 'SEE ALSO'; do
            grep -Eq "^\.SH \"?$section\"?$" "$work/usr/share/man/man1/$page.1" || { echo "$page(1) has no $section" && exit 1; }
        done
        if grep -Fq '???' "$work/usr/share/man/man1/$page.1"; then echo "$page(1) has a sign that was not known" && exit 1; fi
    done
    grep -q 'ends with status 0' "$work/usr/share/man/man1/rowlist.1"
}

# Again, with a toolchain that can do nothing: nothing is proved. Where it is not known what was proved, the toolchain is asked for.
try_again() {
    mkdir bin
    printf '#!/bin/sh\necho "rt was asked for" >&2\nexit 9\n' >bin/rt
    chmod +x bin/rt
    PATH=$PWD/bin:$PATH "$top/tools/install.sh" install "$work/usr" >again.txt
    grep -q 'proved and built from these sources already' again.txt
    mv "$top/target/proved.sum" .
    if PATH=$PWD/bin:$PATH "$top/tools/install.sh" install "$work/usr" >again.txt 2>&1; then
        echo "It was installed though nothing says that it is proved." && exit 1
    fi
    mv proved.sum "$top/target/"
    grep -q 'rt was asked for' again.txt
    "$top/tools/install.sh" uninstall "$work/usr"
    [ -z "$(find "$work/usr" -type f)" ] || { find "$work/usr" -type f && exit 1; }
    "$top/tools/install.sh" uninstall "$work/usr"
}

tools/install.sh install "$work/usr"
mkdir "$work/try"
cd "$work/try"
try_c
try_cargo
try_programs
try_pages
try_again
echo "What was installed works."
