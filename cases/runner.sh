# Runs the built program and compares what it writes and its exit status with what is stated. It is sourced by
# examples/check and cases/check. A run that takes more than a minute fails.
program=$(cd "$(dirname "${BASH_SOURCE[0]}")/.." && pwd)/crates/openr_lab/out/openr_lab
seconds=${SECONDS_A_RUN:-60}
passed=0
failed=0
folder=$(mktemp -d)
wrote=$folder/wrote
stated=$folder/stated
trap 'rm -rf "$folder"' EXIT

[ -x "$program" ] || { echo "$program isn't built" >&2; exit 1; }

# Tells that a case differs: its name, the status at its end and the stated one.
differs() {
    failed=$((failed + 1))
    echo "$1 differs: status $2, stated $3"
    [ "$2" -eq 124 ] && echo "  it took more than $seconds seconds"
    echo "--- stated"
    head -c 2000 "$stated"
    echo "--- written"
    head -c 2000 "$wrote"
    echo "---"
}

# Runs the program on standard input: a name, the stated status, the stated output as a file, and the words.
run() {
    local name=$1 status=$2 ended
    # Where nothing is stated, nothing is equal to it.
    [ "$3" = "$stated" ] || { rm -f "$stated"; cp "$3" "$stated"; }
    shift 3
    timeout "$seconds" "$program" "$@" > "$wrote"
    ended=$?
    if [ "$ended" -eq "$status" ] && cmp -s "$wrote" "$stated"; then
        passed=$((passed + 1))
    else
        differs "$name" "$ended" "$status"
    fi
    return 0
}

# The same where the stated output is a text.
run_text() {
    local name=$1 status=$2
    printf '%s' "$3" > "$stated"
    shift 3
    run "$name" "$status" "$stated" "$@"
}

# Tells that a case wasn't run.
was_not_run() {
    failed=$((failed + 1))
    echo "$1 wasn't run"
}

# Ends with the number of cases that passed and failed: the word is what they are called.
finish() {
    echo "$1: $passed passed, $failed failed"
    [ "$failed" -eq 0 ] && [ "$passed" -gt 0 ]
}
