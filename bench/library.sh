#!/bin/sh
# What the calls of the static library take, beside naga_oil's own: `sh bench/library.sh LIBRARY [UPSTREAM]` prints a table in
# Markdown. LIBRARY is `crates/yettuvam_c/out/libyettuvam_c.a` once it is built, UPSTREAM the folder of naga_oil's own source; without it
# its rows are left out. RUNS says how often each call is done (9), SIZES which of the sizes 1, 10 and 100 are measured (all).
here=$(CDPATH='' cd -- "$(dirname -- "$0")" && pwd) || exit 1
runs=${RUNS:-9}
library=$1
[ -f "$library" ] || { echo 'usage: sh bench/library.sh LIBRARY [UPSTREAM]' >&2; exit 2; }
folder=$(mktemp -d) || exit 1
trap 'rm -rf "$folder"' EXIT
. "$here/texts.sh"
heap=$(dirname "$(rt doc | head -n 1)")/c/liblibc_c.a
cc -O2 -I "$here/../crates/yettuvam_c/include" "$here/library.c" "$library" "$heap" -o "$folder/library" || exit 1
peer=
if [ -n "$2" ]; then
    if sh "$here/peer.sh" "$folder/peer" "$2" 2> "$folder/why"; then
        peer=$folder/peer/target/release/peer
    else
        echo "bench: naga_oil in Rust isn't built, its rows are left out: $(cat "$folder/why")" >&2
    fi
fi

# Milliseconds of the processor, the least of the runs, of `wc` with its start.
of_wc() {
    LC_ALL=C python3 - "$1" "$runs" << 'END'
import resource, subprocess, sys
def used():
    told = resource.getrusage(resource.RUSAGE_CHILDREN)
    return told.ru_utime + told.ru_stime
least = 1e9
for _ in range(int(sys.argv[2])):
    before = used()
    subprocess.run(["wc", sys.argv[1]], stdout=subprocess.DEVNULL, check=True)
    least = min(least, used() - before)
print("%.3f" % (least * 1e3))
END
}

row() {
    printf '| %s | %s | %s | %s |\n' "$@"
}

row 'text, milliseconds' 'metadata' 'text' '`wc`'
row --- --- --- ---
for size in ${SIZES:-1 10 100}; do
    for kind in plain imports; do
        text=$folder/$kind.$size
        "${kind}_text" $((size * 200000)) > "$text"
        "$folder/library" "$text" "$runs" > "$folder/told" || exit 1
        read -r metadata preprocessed < "$folder/told"
        row "$kind, $size times 0.2 MB: the library" "$metadata" "$preprocessed" "$(of_wc "$text")"
        [ -n "$peer" ] || continue
        "$peer" "$text" "$runs" 2>&1 > /dev/null | awk '{ printf "%.3f %.3f\n", $1 * 1000, $2 * 1000 }' > "$folder/told"
        read -r metadata preprocessed < "$folder/told"
        row "$kind, $size times 0.2 MB: naga_oil 0.21.0 in Rust" "$metadata" "$preprocessed" -
    done
done
