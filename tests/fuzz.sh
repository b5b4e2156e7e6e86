#!/bin/sh
# Compares `oil` with a plain reading of its rules on random texts and projects: fuzz.sh SECONDS [SEED]
# Runs the stored seeds of tests/fuzz/seeds first. Prints each difference, made smaller, and stores it in tests/fuzz/found.
# The program is OIL of the environment, else the one that `oil` builds. Needs Python 3.
if [ "$#" -lt 1 ] || [ "$#" -gt 2 ]; then
    echo 'usage: fuzz.sh SECONDS [SEED]' >&2
    exit 2
fi
root=$(CDPATH='' cd -- "$(dirname -- "$0")/.." && pwd) || exit 1
if [ -z "$OIL" ]; then
    OIL=$root/crates/naga_oil_mini/out/naga_oil_mini
    # A call with no words builds the program, where it isn't built yet.
    [ -x "$OIL" ] || "$root/oil" > /dev/null
fi
if [ ! -x "$OIL" ]; then
    echo "fuzz.sh: there is no program $OIL" >&2
    exit 2
fi
export OIL
exec python3 -B "$root/tests/fuzz/fuzz.py" "$@"
