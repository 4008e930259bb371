#!/usr/bin/env bash
# Checks the must-fail edits without proving: each stands right in must-fail/ and names in its first line the promise that it guards,
# each text that it replaces stands once in its file, and there are not more of them than the gate has time for.
set -u
cd "$(dirname "$0")/.." || exit 2

most=90
bad=0
say() { echo "$1"; bad=1; }

# How often a text stands in a file.
times() {
    OLD=$1 awk '
        { text = text $0 "\n" }
        END { while (at = index(text, ENVIRON["OLD"])) { n++; text = substr(text, at + 1) } print n + 0 }' "$2"
}

count=0
for edit in crates/*/must-fail/*.edit; do
    count=$((count + 1))
    crate=${edit#crates/}
    crate=${crate%%/*}
    # rt reads no other line than those of a file, an old and a new text; this one is for readers.
    IFS= read -r first <"$edit"
    [[ $first =~ ^"# $crate::"[A-Za-z0-9_:]+": ". ]] || say "$edit: the first line is not '# $crate::FUNCTION: PROMISE'"
    [ "${#first}" -le 120 ] || say "$edit: the first line has more than 120 characters"
    file='' pairs=0
    while IFS= read -r line; do
        case $line in
        'file: '*) file=crates/$crate/${line#file: } ;;
        'old: '*)
            if [ ! -f "$file" ]; then
                say "$edit: there is no file '$file'"
            elif [ "$(times "${line#old: }" "$file")" != 1 ]; then
                say "$edit: '${line#old: }' stands $(times "${line#old: }" "$file") times in $file"
            fi
            ;;
        'new:'*) pairs=$((pairs + 1)) ;;
        esac
    done <"$edit"
    [ "$pairs" -gt 0 ] || say "$edit: it has no 'new:' line"
done
# Anything else there is no edit to rt, but for a text that ends in .md.
while IFS= read -r other; do
    say "$other: no edit stands there or has such a name"
done < <(find crates -path '*/must-fail/*' -type f ! -name '*.md' ! -regex 'crates/[^/]*/must-fail/[A-Za-z0-9_-][A-Za-z0-9_.-]*\.edit' \
    ! -path 'crates/*/out/*')
[ "$count" -le "$most" ] || say "there are $count must-fail edits, and $most is the most"
[ "$bad" -eq 0 ] && echo "$count must-fail edits, each with the promise that it guards"
exit "$bad"
