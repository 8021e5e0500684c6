#!/usr/bin/env bash
# The table of bench/README.md: for each row the best of so many runs, 3 if not given.
set -eu
cd "$(dirname "$0")/.."
runs=${1:-3}

sed -n 's/^model name[^:]*: /Processor: /p' /proc/cpuinfo | head -n 1
awk '/^MemTotal/ { printf "Memory: %.0f GiB\n\n", $2 / 1048576 }' /proc/meminfo
for _ in $(seq "$runs"); do
    crates/bench/out/bench all
done | awk '
    !($1 in best) { names[++rows] = $1 }
    $2 + 0 > best[$1] + 0 { best[$1] = $2 }
    END {
        print "| row | megabytes a second | times a plain pass |"
        print "|---|---|---|"
        for (row = 1; row <= rows; row++) {
            rate = best[names[row]]
            printf "| `%s` | %.0f | %.1f |\n", names[row], rate / 1000000, best["plain"] / rate
        }
    }'
