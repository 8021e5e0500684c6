#!/usr/bin/env bash
# All tests: the gate `rt ci` over the tree as it stands, and behind it what `rt ci` does not try: that the files which are
# written from the cases are up to date, and the built program on real files. The last line counts all: 'N passed, M failed'.
# What this machine cannot try counts as skipped.
set -uo pipefail
cd "$(dirname "$0")/.."

log=$(mktemp)
trap 'rm -f "$log"' EXIT
rt ci 2>&1 | tee "$log"
gate=$?
read -r passed _ failed _ < <(grep -E '^[0-9]+ passed, [0-9]+ failed' "$log" | tail -1)
passed=${passed:-0}
failed=${failed:-1}
skipped=0

# Counts one check, which prints what is wrong.
check() {
    if "$@"; then
        passed=$((passed + 1))
    else
        failed=$((failed + 1))
    fi
}

# Counts what a program of many checks says of itself in its last line.
count() {
    local here=$log.count good=0 bad=1 more=0
    "$@" 2>&1 | tee "$here"
    read -r good bad more < <(sed -nE '$s/^([0-9]+) passed, ([0-9]+) failed(, ([0-9]+) skipped)?$/\1 \2 0\4/p' "$here")
    rm -f "$here"
    passed=$((passed + ${good:-0}))
    failed=$((failed + ${bad:-1}))
    skipped=$((skipped + 10#${more:-0}))
}

# What a program wrote in place of what it must: `rt ci` names the line alone.
for wanted in crates/*/stdout; do
    wrote=${wanted%/stdout}/out/stdout
    if [ -f "$wrote" ] && ! cmp -s "$wanted" "$wrote"; then
        echo "$wrote is not $wanted:"
        diff -U 8 "$wanted" "$wrote" | head -60
    fi
done

# The files that are written from the cases are up to date.
if command -v python3 > /dev/null; then
    check tools/cases_data.py --check
    check tools/cases.py --check crates/cd_meaning/specs/Cases
    check tools/type_cases.py --check crates/cd_types/specs/Cases
else
    echo 'skipped: no python3 to see that the files written from the cases are up to date'
    skipped=3
fi

# The program that the gate built.
if command -v python3 > /dev/null && [ -x crates/conduit/out/conduit ]; then
    count tests/run/run.py
else
    echo 'failed: tests/run was not run, for there is no program or no python3'
    failed=$((failed + 1))
fi

[ "$gate" -eq 0 ] || [ "$failed" -gt 0 ] || failed=1
line="$passed passed, $failed failed"
[ "$skipped" -eq 0 ] || line="$line, $skipped skipped"
echo "$line"
[ "$failed" -eq 0 ]
