#!/usr/bin/env bash
# Looks at the must-fail edits, proves every crate (rt ci), then builds the static library and the program, runs the Rust tests over
# them and those of the tool film, and tries the installation. The very last line is 'N passed, M failed', the counts of all together.
# A step that breaks without saying how many failed counts as one failed. Exit status 0 only if nothing failed.
set -u

cd "$(dirname "${BASH_SOURCE[0]}")/.." || exit 1

passed=0
failed=0
log=$(mktemp) || exit 1
trap 'rm -f "$log"' EXIT

# Runs a command, shows what it writes and keeps that in the log. Answers the command's own status.
run() {
    printf '== %s\n' "$*"
    "$@" </dev/null 2>&1 | tee "$log"
    return "${PIPESTATUS[0]}"
}

# Ends with the counts.
finish() {
    printf '%d passed, %d failed\n' "$passed" "$failed"
    [ "$failed" -eq 0 ] && [ "$passed" -gt 0 ]
    exit
}

# Says what broke, counts it as one failed and ends.
broke() {
    printf 'test.sh: %s\n' "$1"
    failed=$((failed + 1))
    finish
}

# The proofs. Their count is the very last line; it and the status must say the same. A must-fail edit that could not be tried as it
# stands fails nothing there, and is counted as failed here.
count_proofs() {
    local status=0 last well
    run rt ci || status=$?
    last=$(tail -n 1 "$log")
    [[ $last =~ ^([0-9]+)\ passed,\ ([0-9]+)\ failed$ ]] || broke "rt ci ended with status $status and no count"
    passed=$((passed + 10#${BASH_REMATCH[1]}))
    failed=$((failed + 10#${BASH_REMATCH[2]}))
    [ "$failed" -eq 0 ] || finish
    [ "$status" -eq 0 ] || broke "rt ci ended with status $status"
    well=$(grep '^rt: ok' "$log" | tail -n 1)
    [ -n "$well" ] || broke "rt ci has no line 'rt: ok'"
    if [[ $well =~ ,\ ([0-9]+)\ bad ]]; then
        failed=$((failed + 10#${BASH_REMATCH[1]}))
        [ "$failed" -eq 0 ] || { echo "test.sh: must-fail edits that are bad: $failed" && finish; }
    fi
}

# Runs a command that runs Rust tests. Each test program writes a line 'test result: ok. N passed; M failed; ..'.
count_rust_tests() {
    local status=0 line found=0 before=$failed
    local pattern='^test result: (ok|FAILED)\. ([0-9]+) passed; ([0-9]+) failed;'
    run "$@" || status=$?
    while IFS= read -r line; do
        if [[ $line =~ $pattern ]]; then
            passed=$((passed + 10#${BASH_REMATCH[2]}))
            failed=$((failed + 10#${BASH_REMATCH[3]}))
            found=1
        fi
    done <"$log"
    [ "$status" -eq 0 ] || [ "$failed" -gt "$before" ] || broke "$1 ended with status $status"
    [ "$found" -eq 1 ] || broke "$1 ran no test"
}

# The last crates are proved one after the other, so a processor is free at times: the crates that the tool film is made of are
# compiled meanwhile, as far as that goes without the proved library. Whether it went well is seen when the tool is built.
compile_ahead() {
    nice -n 19 tools/film-cargo.sh build --release --workspace --tests --keep-going >/dev/null 2>&1 </dev/null
}

# A step that counts as one test.
count_step() {
    run "$@" || broke "$1 ended with status $?"
    passed=$((passed + 1))
}

count_step tools/edits.sh
compile_ahead &
count_proofs
wait
# rt ci proves and keeps no archive, so it is built by itself, over the same sources.
run tools/prove.sh || broke "the static library could not be built"
# The program that the proofs were compiled to, for the tests that run it.
ROWLIST="$PWD/crates/rowlist/out/rowlist"
export ROWLIST
count_rust_tests cargo test --manifest-path rust/Cargo.toml --release --offline --locked --no-fail-fast --color never
count_rust_tests tools/film-cargo.sh test --release --workspace --no-fail-fast --color never
count_step tools/test-install.sh
finish
