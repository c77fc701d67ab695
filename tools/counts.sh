# shellcheck shell=sh
# Sourced by tools, at the top of the repository: the counts of their last line, 'N passed, M failed', with ', K skipped' if
# the machine lacks what some checks need.
passed=0
failed=0
skipped=0

has() { command -v "$1" > /dev/null 2>&1; }
pass() {
    passed=$((passed + 1))
    echo "ok: $1"
}
fail() {
    failed=$((failed + 1))
    echo "FAILED: $1"
}
skip() {
    skipped=$((skipped + 1))
    echo "skipped: $1"
}
counts() {
    if [ "$skipped" -eq 0 ]; then
        echo "$passed passed, $failed failed"
    else
        echo "$passed passed, $failed failed, $skipped skipped"
    fi
}
finish() {
    counts
    [ "$failed" -eq 0 ]
    exit
}
