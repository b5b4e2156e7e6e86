#!/bin/sh
# Judges what `yettuvam build` makes: round_trip.sh [PROGRAMS [SEED]]
# - Each folder of micro/ is a shader and its modules: with the words in `words` the program has to print what stands in `made.wgsl`,
#   or has to report what stands in `fault.txt`. Chromium has to take what is made, and where there is a file `writes`, the shader
#   has to write the numbers in it.
# - Each text of texts/, and each of PROGRAMS random programs (40), is read and written. Written once more it has to be the same text,
#   Chromium has to take it as it takes the first, and what both write has to be the same.
# Needs Python 3, node of version 18 or later, and Chromium. On Debian:
#     apt-get install --no-install-recommends chromium nodejs python3
# Chromium draws and computes in software here: no graphics card is needed, and no network. The program is YETTUVAM of the
# environment, else `yettuvam` at the top of the repository, which is proved and built at its first run.
# Status 0: all is as it has to be; 1: something isn't; 2: something is missing.
here=$(CDPATH='' cd -- "$(dirname -- "$0")" && pwd) || exit 2
program=${YETTUVAM:-$here/../../yettuvam}
programs=${1:-40}
seed=${2:-1}
for command in node python3 "${CHROMIUM:-chromium}" "$program"; do
    command -v "$command" > /dev/null || { echo "round_trip.sh: there is no $command" >&2; exit 2; }
done
folder=$(mktemp -d) || exit 2
trap 'rm -rf "$folder"' EXIT
failed=0
made=0
refused=0

fail() {
    echo "round_trip.sh: $*" >&2
    failed=1
}

# Whether the program reports what it has to report, and prints nothing.
is_refused() {
    [ "$1" -eq 1 ] && [ ! -s "$folder/out" ] && cmp -s "$folder/err" fault.txt
}

# Whether the program prints what it has to print, and reports nothing.
is_made() {
    [ "$1" -eq 0 ] && [ ! -s "$folder/err" ] && cmp -s "$folder/out" made.wgsl
}

for pair in "$here"/micro/*/; do
    cd "$pair" || exit 2
    name=micro/$(basename "$pair")
    read -r words < words
    # shellcheck disable=SC2086
    "$program" $words > "$folder/out" 2> "$folder/err"
    status=$?
    if [ -f fault.txt ]; then
        is_refused "$status" && refused=$((refused + 1)) || fail "$name isn't refused as it has to be: $(cat "$folder/err")"
    else
        is_made "$status" && made=$((made + 1)) || fail "$name isn't made as it has to be: $(cat "$folder/err")"
        echo "${pair}made.wgsl" >> "$folder/judged"
    fi
done
echo "micro: $made made and $refused refused as they have to be"

python3 -B "$here/random_programs.py" "$seed" "$programs" "$folder/random" || exit 2
mkdir "$folder/once" "$folder/twice" || exit 2
written=0
for text in "$here"/texts/*.wgsl "$folder"/random/*.wgsl; do
    name=$(basename "$text")
    once=$folder/once/$name
    if ! "$program" build "$text" > "$once" || ! "$program" build "$once" > "$folder/twice/$name"; then
        fail "$name isn't read and written"
    elif ! cmp -s "$once" "$folder/twice/$name"; then
        fail "$name is written otherwise when it is read again"
    else
        written=$((written + 1))
    fi
    printf '%s\n%s\n' "$text" "$once" >> "$folder/judged"
    # Only a text with these words has something to run.
    grep -q '@group(0) @binding(0) var<storage, read_write> out: array<u32, 64>;' "$text" && printf '%s\n%s\n' "$text" "$once" >> "$folder/run"
done
echo "texts and random programs: $written are the same when they are read and written again"

judge() {
    node "$here/judge.mjs" "$@" > "$folder/said"
    status=$?
    grep -v -e ': ok$' -e ': alike$' "$folder/said" >&2
    [ "$status" -eq 2 ] && exit 2
    [ "$status" -eq 0 ] || failed=1
}

judge < "$folder/judged"
judge --pairs < "$folder/run"
exit $failed
