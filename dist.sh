#!/bin/sh
# Makes a tarball of the library, its header, its files for pkg-config and CMake, its Rust crate, and the programs that are built:
#
#     sh dist.sh [FOLDER]      makes FOLDER/yettuvam-VERSION-x86_64-linux.tar.gz; FOLDER is out/ without a word
#
# It works unpacked anywhere: its files name each other by relative paths. SHA256SUMS has the checksum of each file, PROOF the
# line with which the proof of the library ended: the last line of LOG with `logic=proved`, where LOG is a file with what
# `rt lib` printed. Nothing is proved here. The variables of `make install` work here too, as LIBRARY=FILE sh dist.sh.
# Needs GNU make, binutils, coreutils, tar and gzip.
root=$(CDPATH='' cd -- "$(dirname -- "$0")" && pwd) || exit 1
folder=${1:-$root/out}
mkdir -p "$folder" && folder=$(CDPATH='' cd -- "$folder" && pwd) || exit 1
log=$LOG
case $log in '' | /*) ;; *) log=$PWD/$log ;; esac
stage=$(mktemp -d) || exit 1
trap 'rm -rf "$stage"' EXIT
version=$(sed -n 's/^pub const VERSION: &str = "yettuvam \([0-9.]*\).*/\1/p' "$root/crates/yettuvam_build/src/help.rt")
name=yettuvam-$version-x86_64-linux
tree=$stage/$name

# The variables of the environment that the Makefile takes too.
set --
for variable in LIBRARY HEAP YETTUVAM OIL; do
    eval "value=\$$variable"
    [ -z "$value" ] && continue
    case $value in /*) ;; *) value=$PWD/$value ;; esac
    set -- "$@" "$variable=$value"
done
make -s -C "$root" install PREFIX="$tree" DESTDIR= OUT="$stage/made" "$@" || exit 1

# The crate finds the archive in the folder lib beside it.
mkdir "$tree/rust" && (cd "$root/rust" && cp -R Cargo.toml build.rs src examples tests "$tree/rust") || exit 1
mkdir "$tree/examples" && cp -R "$root/examples/hot_reload" "$root/examples/c" "$tree/examples" || exit 1

# What is known of the proof.
line=
[ -n "$log" ] && { [ -f "$log" ] || { echo "dist.sh: there is no $log" >&2; exit 1; }; }
[ -n "$log" ] && line=$(grep 'logic=proved' "$log" | tail -n 1)
if [ -n "$line" ]; then
    echo "$line" > "$tree/PROOF"
else
    echo 'The line of the proof is not here: no log with a line "logic=proved" was given when this tarball was made.' > "$tree/PROOF"
fi

(cd "$tree" && find . -type f ! -name SHA256SUMS | LC_ALL=C sort | sed 's|^\./||' | tr '\n' '\0' | xargs -0 sha256sum > "$stage/sums" &&
    mv "$stage/sums" SHA256SUMS) || exit 1
tar -C "$stage" --sort=name --owner=0 --group=0 --numeric-owner --mtime="@${SOURCE_DATE_EPOCH:-$(git -C "$root" log -1 --format=%ct 2> /dev/null || date +%s)}" \
    -cf - "$name" | gzip -n > "$folder/$name.tar.gz" || exit 1
(cd "$folder" && sha256sum "$name.tar.gz" > "$name.tar.gz.sha256") || exit 1
echo "$folder/$name.tar.gz"
cat "$tree/PROOF"
