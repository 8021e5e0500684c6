#!/usr/bin/env bash
# The tables of whole scripts in bench/README.md: each row is the best of so many runs, 5 if not given, of the built
# program and of a tool beside it, in turn, over a file of 256 MiB that is made on the spot.
set -eu
cd "$(dirname "$0")/.."
runs=${1:-5}
conduit=$PWD/crates/conduit/out/conduit
timed=$PWD/bench/timed.py
folder=$(mktemp -d)
trap 'rm -rf "$folder"' EXIT
trap 'exit 130' INT TERM
cd "$folder"
export LC_ALL=C

yes 'The quick brown fox jumps over the lazy dog, 0123456789 times.' | head -c 268435456 > big
head -c 2048 big > small
# lines of 0 to 80 bytes, some of which begin with an a, and with commas in them
awk 'BEGIN {
    srand(7)
    text = "another quick brown fox, a lazy dog, and 0123456789 times, or abcdefghijklmnopqrstuvwxyz, again and again, and so on"
    for (i = 0; i < 8192; i++) print substr(text, 1 + int(rand() * 32), int(rand() * 81))
}' > some
while cat some; do :; done 2> /dev/null | head -c 268435456 > lines

script() {
    printf 'run %s;' "$2" > "$1"
}
script copy 'sourceFile "big" | stdout'
script file 'sourceFile "big" | sinkFile "copied"'
script take 'sourceFile "big" | takeE 5 | stdout'
script length 'sourceFile "big" | lengthE'
script filter 'sourceFile "big" | filterE not space | stdout'
script map 'sourceFile "big" | mapE rot13 | stdout'
script pass 'stdin | passE | stdout'
script five 'sourceFile "big" | passE | passE | passE | passE | passE | stdout'
script twice '{ sourceFile "big"; sourceFile "big" } | stdout'
script repeat 'sourceFile "big" | repeatE 2 | stdout'
script count 'sourceFile "lines" | lines 65536 | length'
script through 'sourceFile "lines" | lines 4096 | unlines | stdout'
script begin 'sourceFile "lines" | lines 4096 | filter begins "a" | unlines | stdout'
script records 'sourceFile "big" | chunksOf 4096 | flat | stdout'
script commas 'sourceFile "lines" | split "," 64 | length'
script first 'sourceFile "lines" | lines 4096 | take 5 | unlines | stdout'
script line "sourceFile \"small\" | { $(yes 'takeE 1;' | head -n 2047 | tr '\n' ' ')takeE 1 } | stdout"

# row NAME SCRIPT ARGUMENTS TOOL: the ratio of the script to the tool, and to a plain read in the same runs.
row() {
    local mine="$conduit run $2 $3" tool=$4 times peak
    # the tool's output goes where the script's does
    mapfile -t times < <("$timed" time "$runs" "$mine" "$tool" 'cat big > /dev/null')
    peak=$("$timed" memory conduit "$mine")
    awk -v name="$1" -v mine="${times[0]}" -v tool="${times[1]}" -v cat="${times[2]}" -v peak="$peak" 'BEGIN {
        printf "| %s | %.1f | %.1f | %.2f | %.2f | %.1f |\n", name, mine, tool, mine / tool, mine / cat, peak / 1024
    }'
}

sed -n 's/^model name[^:]*: /Processor: /p' /proc/cpuinfo | head -n 1
awk '/^MemTotal/ { printf "Memory: %.0f GiB\n\n", $2 / 1048576 }' /proc/meminfo
echo '| script | ms | beside it, ms | times | times `cat` | MiB |'
echo '|---|---|---|---|---|---|'
row 'copy to the null device' copy '> /dev/null' 'cat big > /dev/null'
row 'copy to a file' file '' 'cat big > copied'
row '`takeE 5`' take '> /dev/null' 'head -c 5 big > /dev/null'
row '`lengthE`' length '> /dev/null' 'cat big | wc -c > /dev/null'
row '`filterE not space`' filter '> /dev/null' "tr -d '[:space:]' < big > /dev/null"
row '`mapE rot13`' map '> /dev/null' 'tr A-Za-z N-ZA-Mn-za-m < big > /dev/null'
row '`stdin \| passE \| stdout`, three in a pipe' pass "< big | $conduit run pass | $conduit run pass > /dev/null" 'cat < big | cat | cat > /dev/null'
row 'five `passE`' five '> /dev/null' "$conduit run copy > /dev/null"
row '`repeatE 2`' repeat '> /dev/null' "$conduit run twice > /dev/null"
row '`lines 65536 \| length`' count '> /dev/null' 'wc -l lines > /dev/null'
row '`lines 4096 \| unlines`' through '> /dev/null' "sed '' lines > /dev/null"
row '`lines 4096 \| filter begins "a" \| unlines`' begin '> /dev/null' "grep '^a' lines | cat > /dev/null"
row '`chunksOf 4096 \| flat`' records '> /dev/null' 'dd if=big bs=4096 of=/dev/null 2> /dev/null'
row '`split "," 64 \| length`' commas '> /dev/null' "$conduit run count > /dev/null"
row '`lines 4096 \| take 5 \| unlines`' first '> /dev/null' 'head -n 5 lines > /dev/null'

# calls NAME SCRIPT ARGUMENTS: how many reads and writes the script made.
calls() {
    strace -f -c -o counts -e trace=read,write sh -c "exec $conduit run $2 $3"
    awk -v name="$1" '$NF == "read" { reads = $4 } $NF == "write" { writes = $4 } END { printf "| %s | %d | %d |\n", name, reads, writes }' counts
}

echo
if command -v strace > /dev/null; then
    echo '| script | calls of `read` | calls of `write` |'
    echo '|---|---|---|'
    calls 'copy to the null device' copy '> /dev/null'
    calls '`mapE rot13`' map '> /dev/null'
    calls '2,048 `takeE 1` of 2,048 bytes' line '> /dev/null'
else
    echo 'skipped: no strace to count the calls'
fi
