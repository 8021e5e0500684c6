#!/usr/bin/env bash
# The table of scripts in bench/README.md: for each row the best of so many runs of the built program, 20 if not given.
set -eu
cd "$(dirname "$0")/.."
runs=${1:-20}
program=$PWD/crates/conduit/out/conduit
folder=$(mktemp -d)
trap 'rm -rf "$folder"' EXIT
cd "$folder"

# A text so many times.
times() {
    for _ in $(seq "$1"); do
        printf '%s' "$2"
    done
}

# An empty script, and scripts of about 8,192 tokens: 256 statements with 128 sites; 128 seals that are closed; and one
# statement whose results are pairs of pairs, within 30 braces.
printf '' > nothing
{
    times 128 "run sourceFile \"a\"$(times 13 ' | passE') | sinkNull; "
    times 128 "run bytes \"a\"$(times 13 ' | passE') | sinkNull; "
} > wide
for name in $(seq 128); do
    printf 'let seal%s = seal sourceFile "a"%s; close seal%s%s | sinkNull; ' "$name" "$(times 13 ' | passE')" "$name" "$(times 13 ' | passE')"
done > seals
{
    printf 'run bytes "a" | %s { passE; lengthE }' "$(times 30 '{ ')"
    times 1300 ' |& { passE; lengthE }'
    printf ' |& sinkNull %s;' "$(times 30 '} ')"
} > pairs

echo '| script | bytes | `show`, ms | `check`, ms |'
echo '|---|---|---|---|'
for script in nothing wide seals pairs; do
    printf '| `%s` | %s |' "$script" "$(wc -c < "$script")"
    for verb in show check; do
        best=
        for _ in $(seq "$runs"); do
            begun=$(date +%s%N)
            "$program" "$verb" "$script" > out
            took=$(($(date +%s%N) - begun))
            [ -n "$best" ] && [ "$best" -le "$took" ] || best=$took
        done
        awk -v took="$best" 'BEGIN { printf " %.1f |", took / 1000000 }'
    done
    echo
done
