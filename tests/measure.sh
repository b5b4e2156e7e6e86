#!/bin/sh
# Measures `oil make` on projects that `bench/projects.sh` writes, and then reloads and variants in one composer, step by step: seconds
# of processor time, and kilobytes of memory at the peak, as GNU time reports them.
# `sh tests/measure.sh [PROGRAM [PROBE]]`; PROGRAM is by default `oil` of this repository, PROBE `naga_oil_probe`, which is proved and
# built first where it isn't yet.
root=$(CDPATH='' cd -- "$(dirname -- "$0")/.." && pwd) || exit 1
program=${1:-$root/oil}
probe=${2:-$root/crates/naga_oil_probe/out/naga_oil_probe}
folder=$(mktemp -d) || exit 1
trap 'rm -rf "$folder"' EXIT
cd "$folder" || exit 1

. "$root/bench/projects.sh"

measure() {
    rm -f ./*
    "$@"
    printf '%s: %s bytes of text, ' "$*" "$(cat ./*.txt top | wc -c)"
    # shellcheck disable=SC2046 # the names of files have no spaces
    /usr/bin/time -o used -f '%U + %S seconds, %M KB' "$program" make $(cat files) > made || exit 1
    cat used
}

measure tree 2047 8
measure chain 100 8
measure chain 200 8
measure chain 400 8
for count in 10 1000 10000; do measure imports 1000 $count; done
for count in 10 1000 10000; do measure summands $count; done

# What each step parsed and built, and its milliseconds.
costs() {
    echo "$*:"
    /usr/bin/time -o used -f '%U + %S seconds, %M KB' "$probe" "$@" --times > made || exit 1
    sed 's/^/    /' made used
}

[ -x "$probe" ] || (cd "$root/crates/naga_oil_probe" && rt run -- reload 1) > made || exit 1
costs reload 500
costs reload 2047
costs variants 500 100 10
