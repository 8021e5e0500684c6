#!/usr/bin/env bash
# Lets one allocation of each test fail, the first, then the second, and so on: a test that meets it has to end for want of
# memory, and with no other answer. The tests are those of crates/tests, run without a proof.
#
# usage: tools/refusals.sh [FROM [TO]]     the allocations with these numbers, from 1 on; 1 to 40 if not given
#
# The last line is 'N refusals, M wrong answers', and the status is 0 where M is 0.
set -eu
cd "$(dirname "$0")/../crates/tests"

from=${1:-1}
to=${2:-40}
refusals=0
wrong=0
seen=$(mktemp)
trap 'rm -f "$seen"' EXIT

for place in $(seq "$from" "$to"); do
    rt try --test --fail-alloc "$place" > "$seen" 2>&1 || true
    if ! grep -q '^test result:' "$seen"; then
        cat "$seen"
        echo "allocation $place: the tests were not run"
        exit 1
    fi
    # behind the line of a test that failed stands why
    while read -r cause; do
        refusals=$((refusals + 1))
        case $cause in
            *NoMemory | *AllocError) ;;
            *)
                echo "allocation $place: $cause"
                wrong=$((wrong + 1))
                ;;
        esac
    done < <(grep -A1 '\.\.\. FAILED$' "$seen" | grep '^ ')
done
echo "$refusals refusals, $wrong wrong answers"
[ "$wrong" -eq 0 ]
