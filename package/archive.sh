#!/bin/sh
# Makes one static archive of the library and of what it needs of the toolchain: sh package/archive.sh ARCHIVE
#
# The library is crates/yettuvam_c/out/libyettuvam_c.a, which `rt lib` in crates/yettuvam_c proves and builds, or LIBRARY of the
# environment. What it needs of the toolchain is liblibc_c.a, three functions over `malloc`, `realloc` and `free`: HEAP of the
# environment, or the one of the toolchain that `rt doc` names. Needs `ar` and `nm` (Debian's binutils).
# Status 0: the archive is made. Status 1: something is missing. Nothing is proved here.
root=$(CDPATH='' cd -- "$(dirname -- "$0")/.." && pwd) || exit 1
[ $# -eq 1 ] || { echo 'usage: sh package/archive.sh ARCHIVE' >&2; exit 2; }
library=${LIBRARY:-$root/crates/yettuvam_c/out/libyettuvam_c.a}
if [ ! -f "$library" ]; then
    echo "there is no library $library. This proves and builds it, with 10 GB of free memory, in an hour or more:" >&2
    echo '    (cd crates/yettuvam_c && rt lib)' >&2
    echo 'LIBRARY names a library that is elsewhere.' >&2
    exit 1
fi
heap=$HEAP
[ -n "$heap" ] || heap=$(dirname "$(rt doc 2> /dev/null | head -n 1)")/c/liblibc_c.a
if [ ! -f "$heap" ]; then
    echo "there is no $heap. HEAP has to name the toolchain's c/liblibc_c.a" >&2
    exit 1
fi
folder=$(mktemp -d) || exit 1
trap 'rm -rf "$folder"' EXIT

# An archive as a path that doesn't depend on the folder.
absolute() {
    case $1 in /*) echo "$1" ;; *) echo "$PWD/$1" ;; esac
}
archive=$(absolute "$1")
library=$(absolute "$library")
heap=$(absolute "$heap")

# The objects of each archive are in a folder of their own, as both may have an object of the same name.
for given in "$library" "$heap"; do
    [ -z "$(ar t "$given" | sort | uniq -d)" ] || { echo "$given has two objects of the same name" >&2; exit 1; }
done
mkdir "$folder/library" "$folder/heap" || exit 1
(cd "$folder/library" && ar x "$library") || exit 1
(cd "$folder/heap" && ar x "$heap") || exit 1
mkdir -p "$(dirname "$archive")" || exit 1
ar qcsD "$folder/one.a" "$folder"/library/* "$folder"/heap/* || exit 1

# The archive needs nothing besides the C library and the compiler's own functions.
nm "$folder/one.a" 2> /dev/null | awk '$1 == "U" { needs[$2] } $2 ~ /^[TtDdBbRrWV]$/ { has[$3] }
    END { for (name in needs) if (!(name in has)) print name }' > "$folder/needs"
if grep '^\(rattle\|yettuvam\)_' "$folder/needs" >&2; then
    echo "$archive would lack these functions" >&2
    exit 1
fi
cp "$folder/one.a" "$archive" || exit 1
