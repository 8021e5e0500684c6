#!/usr/bin/env bash
# The tables of trees in bench/README.md: for each row the best of so many runs, 3 if not given.
set -eu
cd "$(dirname "$0")/.."
runs=${1:-3}

sed -n 's/^model name[^:]*: /Processor: /p' /proc/cpuinfo | head -n 1
awk '/^MemTotal/ { printf "Memory: %.0f GiB\n\n", $2 / 1048576 }' /proc/meminfo
for _ in $(seq "$runs"); do
    crates/bench/out/bench trees
done | awk '
    # A row of a chain has its members and the length of the chunk before the rate.
    {
        row = $1 == "chain" && NF == 5 ? $2 " " $3 : $1
        rate = $(NF - 1) + 0
        if (rate > best[row]) best[row] = rate
    }
    END {
        print "| row | megabytes a second | times a copy |"
        print "|---|---|---|"
        printf "| `chunk` | %.0f | 1.00 |\n", best["chunk"] / 1000000
        printf "| `pipeline` | %.0f | %.2f |\n", best["pipeline"] / 1000000, best["chunk"] / best["pipeline"]
        print ""
        print "| members | chunks of 1 byte, ns | chunks of 32,768 bytes, ns |"
        print "|---|---|---|"
        for (members = 10; members <= 4000; members = members == 1000 ? 4000 : members * 10)
            printf "| %d | %.1f | %.1f |\n", members, 1000000000 / best[members " 1"], 1000000000 / best[members " 32768"]
    }'
