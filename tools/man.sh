#!/usr/bin/env bash
# Writes the man pages of film, its commands and rowlist to a folder: tools/man.sh FOLDER FILM VERSION, or prints their names:
# tools/man.sh names. They are made of what the programs say of themselves; what they all share stands here.
set -euo pipefail

here=$(dirname "${BASH_SOURCE[0]}")

# Each page and its purpose.
pages() {
    cat <<'END'
film keeps the rows of raster films safe on a line that drops bits
film-write write the messages of a film
film-drop send a film over a simulated line that drops bits
film-list list every row that can have been sent
film-show show what a file of messages or of received rows says
film-check compare two films bit by bit, or a film with its messages
film-plot draw the sent, the received and the recovered film side by side
film-soak try the library on this machine
film-row list one row from words on the command line
rowlist list the rows that a message and a received row allow
END
}

# The sections of a page that its program does not print.
sections() {
    local other others=
    echo '[EXIT STATUS]'
    case $1 in rowlist) status_of_rowlist ;; film-row) status_of_row ;; *) status_of_film ;; esac
    while read -r other _; do
        [ "$other" = "$1" ] || others="$others${others:+, }\\fB$other\\fP(1)"
    done < <(pages)
    printf '[SEE ALSO]\n%s\n' "$others"
}

status_of_film() {
    cat <<'END'
.TP
0
done: every row was recovered alone, or a comparison found no difference
.TP
1
a row was not recovered alone, a comparison found a difference, or a row that was tried is missing or wrong
.TP
2
bad usage, a bad file, which is named on standard error, or no thread or process could be started; nothing is written under the name of
an output
.TP
130
interrupted before all rows were done; \fBfilm-list\fP(1) writes those that are done, with .unfinished behind the names of its outputs

END
}

status_of_row() {
    cat <<'END'
.TP
0
one row can have been sent
.TP
1
several rows or none can have been sent, more than 12 bits are lost, there are more rows than a list holds, or the row was given up
.TP
2
bad usage, the words are no message and no row of it (refusals 1 to 6 and 8), or no thread or process could be started
.TP
130
interrupted

END
}

# An error that a program's main returns is its only other status.
status_of_rowlist() {
    cat <<'END'
rowlist ends with status 0 whatever came out, also where the input is refused. Where the input could not be read, or what it prints
could not be written, as on a full disk, it names the error on standard error and ends with status 1. A whole answer is a line
"count N" with N lines behind it, or the line "refused N" alone, each ended by a newline; anything else, nothing at all too, is an
answer that was lost. A script compares them before it takes an answer, or lets \fBfilm-row\fP(1) list the row, whose exit statuses
say what came out.

END
}

# A page: its name, its purpose, the command that prints its help. The minus sign of the refusals is no ASCII, and help2man may put
# question marks in its place.
page() {
    help2man --no-info --no-discard-stderr --source "dairyhour $version" --version-string "$version" --name "$2" \
        --include <(sections "$1") "$3" |
        sed -e 's/ ??? / \\- /' -e "s|^\.TH [^ ]*|.TH ${1^^}|" -e "/^\.SH NAME/{n;s|^.* \\\\-|$1 \\\\-|}" >"$folder/$1.1"
}

if [ "${1:-}" = names ]; then
    pages | cut -d ' ' -f 1
    exit
fi
folder=$1
film=$2
version=$3
while read -r name purpose; do
    case $name in
        rowlist) page "$name" "$purpose" "$here/rowlist-help.sh" ;;
        film) page "$name" "$purpose" "$film" ;;
        *) page "$name" "$purpose" "$film ${name#film-}" ;;
    esac
done < <(pages)
