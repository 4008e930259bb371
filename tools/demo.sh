#!/usr/bin/env bash
# Shows the product at work: a real film's messages are written, its rows sent over a simulated line that drops bits, and every
# row that can have been sent is listed. Exit status 0 only if each list that was not refused has the row that was sent.
set -u

cd "$(dirname "${BASH_SOURCE[0]}")/.." || exit 1
out=target/demo
film=rust/film/target/release/film
board=rust/films/ecc83-bcu-n378.pbm

# Shows a command, and runs it.
run() {
    printf '\n$ %s\n' "$*"
    "$@"
}

tools/prove.sh || exit 1
echo "Building the tool film:"
tools/film-cargo.sh build --release --quiet || exit 1
echo "  $film"
mkdir -p "$out"

run "$film" write "$board" -o "$out/board.rsm" || exit 1
run "$film" drop "$board" --seed 1 --rate 0.004 -o "$out/board.rx" || exit 1
run "$film" list "$out/board.rsm" "$out/board.rx" --sent "$board" --patience 20 -o "$out/recovered.pbm" --lists "$out/lists.txt" |
    tee "$out/report.txt"
[ "${PIPESTATUS[0]}" -le 1 ] || exit 1
run "$film" check "$board" "$out/recovered.pbm"
[ $? -le 1 ] || exit 1
run "$film" plot "$board" "$out/board.rx" "$out/recovered.pbm" --lists "$out/lists.txt" -o "$out/board.png" -o "$out/board.svg" || exit 1

# A number of the report, by the words in front of it.
number() {
    sed -n "s/^$1 *\([0-9]*\).*/\1/p" "$out/report.txt"
}
rows=$(number rows)
listed=$((rows - $(number 'not listed')))

echo
echo "The recovered film is $out/recovered.pbm; sent, received and recovered film side by side: $out/board.png and board.svg."
if [ "$(number 'sent but missing')" != 0 ]; then
    echo "A row that was sent is MISSING from a list that was not refused."
    exit 1
fi
if [ "$listed" -eq 0 ]; then
    echo "No row was listed at all, so nothing is shown."
    exit 1
fi
echo "$listed of $rows rows were listed, and each of these lists has the row that was sent."
