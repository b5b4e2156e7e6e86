#!/bin/sh
# Measures `oil pre` and `oil make` beside other programs: `sh bench/run.sh OIL [UPSTREAM [PROBE]]` prints tables in Markdown.
# OIL is the program `oil`, UPSTREAM the folder of naga_oil's own source (`-` for none), PROBE the program `naga_oil_probe`.
# What isn't there is left out, and a line on standard error says so. RUNS is the number of runs of each row (5), SIZES selects
# among the sizes 1, 10 and 100 (all), and the folder KEEP keeps what is built of UPSTREAM for a later run.
# `bench/README.md` says what each row measures.
here=$(CDPATH='' cd -- "$(dirname -- "$0")" && pwd) || exit 1
upstream=${2:--}
sizes=${SIZES:-1 10 100}

# A program by its path from the root.
program() {
    case $1 in
        /* | '') echo "$1" ;;
        *) echo "$PWD/$1" ;;
    esac
}

oil=$(program "$1")
probe=$(program "$3")
[ -x "$oil" ] || { echo 'usage: sh bench/run.sh OIL [UPSTREAM [PROBE]]' >&2; exit 2; }
folder=$(mktemp -d) || exit 1
trap 'rm -rf "$folder"' EXIT
. "$here/projects.sh"
. "$here/texts.sh"

# How many modules a tree of a size has; 2,047 is the most that a composer takes.
modules_of() {
    case $1 in
        1) echo 20 ;;
        10) echo 204 ;;
        *) echo 2047 ;;
    esac
}

# A folder for each kind of input and each size.
write_inputs() {
    for size in $sizes; do
        for kind in plain imports tree chain; do mkdir "$folder/$kind.$size" || exit 1; done
        (cd "$folder/plain.$size" && plain_text $((size * 200000)) > text) || exit 1
        ln -s text "$folder/plain.$size/text.frag"
        tail -n +2 "$folder/plain.$size/text" > "$folder/plain.$size/text.c" # `cpp` doesn't know `#version`
        (cd "$folder/imports.$size" && imports_text $((size * 200000)) > text) || exit 1
        (cd "$folder/tree.$size" && tree "$(modules_of "$size")" 8) || exit 1
        (cd "$folder/chain.$size" && chain $((size * 4)) 8) || exit 1
    done
    mkdir "$folder/plain.0" && echo > "$folder/plain.0/text"
}

write_inputs
[ -z "$KEEP" ] || { mkdir -p "$KEEP" && ln -s "$(CDPATH='' cd -- "$KEEP" && pwd -P)" "$folder/peer"; } || exit 1
if [ "$upstream" = - ]; then
    echo "bench: no source of naga_oil is named; its rows are left out" >&2
elif ! sh "$here/peer.sh" "$folder/peer" "$upstream" 2> "$folder/why"; then
    echo "bench: naga_oil in Rust isn't built, its rows are left out: $(cat "$folder/why")" >&2
fi
python3 "$here/measure.py" "$folder" "$oil" "$probe" "${RUNS:-5}" "$sizes"
