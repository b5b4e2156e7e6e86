#!/bin/sh
# Runs `oil` on hostile input: texts as large as they may be and one byte larger, as many modules as there may be and one more,
# files that can't be read, sizes up to a thousand, shared levels, and each front of each text of tests/hostile. Prints a line
# for each item. The program is OIL of the environment, else the one that `oil` builds. Needs Python 3.
root=$(CDPATH='' cd -- "$(dirname -- "$0")/.." && pwd) || exit 1
if [ -z "$OIL" ]; then
    OIL=$root/crates/naga_oil_mini/out/naga_oil_mini
    # A call with no words builds the program, where it isn't built yet.
    [ -x "$OIL" ] || "$root/oil" > /dev/null
fi
if [ ! -x "$OIL" ]; then
    echo "hostile.sh: there is no program $OIL" >&2
    exit 2
fi
export OIL
exec python3 -B "$root/tests/hostile/hostile.py" "$@"
