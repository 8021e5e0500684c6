#!/usr/bin/env bash
# Tries the wrong changes of the code, and the right twins of some of them.
#
# usage: tools/edits.sh [CRATE..]      those of these crates, or of all
#
# The check of a crate must refuse each change in crates/CRATE/must-fail, which the gate tries too, and in edits/CRATE.
# Each of the gate, and some of the others, has a twin of its name in edits/twins/CRATE: a change of the same line in the
# same form that means what stood there before. The check must accept the twin, so that it is the meaning which is refused
# and not the form.
#
# All is done in a copy of the tree as it stands, which is taken away at the end. A check begins with what earlier ones
# kept. The last line is 'N edits refused, M twins accepted', and the status is 0 where these are all.
set -eu
cd "$(dirname "$0")/.."

room=$(mktemp -d)
trap 'rm -rf "$room"' EXIT
trap 'exit 130' INT TERM

refused=0
accepted=0
failed=0

fail() {
    echo "FAILED: $*"
    failed=$((failed + 1))
}

# The names of the edits in a folder, which may not be there.
names_in() {
    [ ! -d "$1" ] || find "$1" -maxdepth 1 -name '*.edit' -printf '%f\n' | sort
}

# The folders agree: no name stands twice, each edit of the gate has its twin, and each twin its edit.
compare_names() {
    local gate="crates/$1/must-fail" name
    for name in $(comm -12 <(names_in "$gate") <(names_in "edits/$1")); do
        fail "$1/$name stands in $gate and in edits/$1"
    done
    for name in $(comm -23 <(names_in "$gate") <(names_in "edits/twins/$1")); do
        fail "$1/$name has no twin"
    done
    for name in $(comm -13 <(names_in "$gate" && names_in "edits/$1") <(names_in "edits/twins/$1")); do
        fail "twin $1/$name is that of no edit"
    done
}

check() {
    (cd "crates/$1" && rt check) >"$room/log" 2>&1
}

# The first line that tells why a check failed.
reason() {
    grep -E -m 1 'error|it is not proved' "$room/log" | cut -c 1-200 || tail -n 1 "$room/log"
}

try_edits() {
    local folder="crates/$1/must-fail" name said
    [ ! -d "edits/$1" ] || { mkdir -p "$folder" && cp "edits/$1"/*.edit "$folder"; }
    [ -d "$folder" ] || return 0
    rt must-fail "$1" >"$room/log" 2>&1 || true
    for name in $(names_in "$folder"); do
        said=$(grep -F -m 1 "must-fail $1/$name: " "$room/log" | cut -c 1-300 || true)
        said=${said#rt: must-fail }
        case $said in
            # by a limit of the prover, or since a proof names what is gone: that says nothing of a contract
            *': refused, as it must be (only'*) fail "$said" ;;
            *': refused, as it must be'*)
                echo "$said"
                refused=$((refused + 1))
                ;;
            *) fail "${said:-$1/$name: not tried: $(tail -n 1 "$room/log")}" ;;
        esac
    done
}

# Makes the changes of an edit in a crate's folder, as rt does: each old text stands once in its file.
apply() {
    local line file='' old='' text rest
    while IFS= read -r line || [ -n "$line" ]; do
        case $line in
            'file: '*) file=$2/${line#file: } ;;
            'old: '*) old=${line#old: } ;;
            'new:'*)
                line=${line#new:}
                # with the ends of its last lines
                text=$(cat "$file" && printf .)
                text=${text%.}
                rest=${text#*"$old"}
                if [ -z "$old" ] || [ "$rest" = "$text" ] || [ "${rest#*"$old"}" != "$rest" ]; then
                    return 1
                fi
                printf '%s%s%s' "${text%%"$old"*}" "${line# }" "$rest" >"$file"
                ;;
        esac
    done <"$1"
}

# `rt must-fail` would prove the crate from nothing for each twin, and a check proves what the twin changes.
try_twins() {
    local name crate="crates/$1" whole="$room/$1"
    mkdir "$whole"
    cp -r "$crate/src" "$whole"
    [ ! -d "$crate/specs" ] || cp -r "$crate/specs" "$whole"
    for name in $(names_in "edits/twins/$1"); do
        if ! apply "edits/twins/$1/$name" "$crate"; then
            fail "twin $1/$name cannot be applied"
        elif check "$1"; then
            echo "twin $1/$name: accepted"
            accepted=$((accepted + 1))
        else
            fail "twin $1/$name is refused: $(reason)"
        fi
        cp -r "$whole"/. "$crate"
    done
}

try_crate() {
    if [ ! -d "crates/$1" ]; then
        fail "$1 is no crate"
        return
    fi
    compare_names "$1"
    if check "$1"; then
        try_edits "$1"
        try_twins "$1"
    else
        fail "$1 is not proved as it stands: $(reason)"
    fi
    rm -rf "crates/$1/out/incremental"
}

mkdir "$room/tree"
git ls-files -z --cached --others --exclude-standard | while IFS= read -r -d '' file; do
    # (one that git still knows may be gone)
    [ ! -f "$file" ] || printf '%s\0' "$file"
done | tar --create --null --files-from - | tar --extract --directory "$room/tree"
cd "$room/tree"

crates=("$@")
if [ "$#" -eq 0 ]; then
    mapfile -t crates < <(find crates/*/must-fail edits/* -maxdepth 0 -type d ! -path edits/twins |
        sed 's|/must-fail$||; s|.*/||' | sort -u)
fi
for crate in "${crates[@]}"; do
    try_crate "$crate"
done
echo "$refused edits refused, $accepted twins accepted"
[ "$failed" -eq 0 ]
