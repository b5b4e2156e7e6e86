#!/bin/sh
# Shows that lists.sh can fail. Copies the documents, crates.txt and the text of the crates to a temporary folder,
# where the lists have to be complete; then changes one thing at a time, which lists.sh has to report with status 1.
# Ends with status 1 if it doesn't. It needs Python 3.
root=$(CDPATH='' cd -- "$(dirname -- "$0")/.." && pwd) || exit 1
copy=$(mktemp -d) || exit 1
trap 'rm -rf "$copy"' EXIT
cd "$root" || exit 1
mkdir "$copy/crates" && cp -r docs tests README.md CONTRIBUTING.md crates.txt "$copy" || exit 1
for crate in crates/*; do
    mkdir "$copy/$crate" || exit 1
    for part in src specs proofs must-fail; do
        [ ! -d "$crate/$part" ] || cp -r "$crate/$part" "$copy/$crate" || exit 1
    done
done
cd "$copy" || exit 1

if ! sh tests/lists.sh > report; then
    cat report
    echo 'the lists are not complete before anything is changed'
    exit 1
fi

# Replaces the first text in a file by the second, and expects that a report names a word.
status=0
changed() {
    cp "$2" kept
    python3 - "$2" "$3" "$4" <<'END' || exit 1
import sys
path, old, new = sys.argv[1:]
text = open(path, encoding='utf-8').read()
if old not in text:
    sys.exit(f'{path} does not have {old}')
open(path, 'w', encoding='utf-8').write(text.replace(old, new, 1))
END
    sh tests/lists.sh > report
    code=$?
    if [ "$code" -eq 1 ] && grep -qF -e "$5" report; then
        echo "reported: $1"
    else
        echo "not reported (status $code): $1"
        status=1
    fi
    cp kept "$2"
}

changed 'a definition beside another file' docs/RULES.md '`Cover.antt::mark_at`' '`CoveredLines.antt::mark_at`' CoveredLines.antt::mark_at
changed 'a definition that the contract does not cite' docs/RULES.md '`Fault.antt::evaluated` means' '`Fault.antt::holds` means' Fault.antt::holds
changed 'a row beside another file' docs/RULES.md '`KindRows.antt::ifdef_row`' '`LineKinds.antt::ifdef_row`' LineKinds.antt::ifdef_row
changed 'a function beside another file' docs/RULES.md '`condition.rt::compare`' '`scope.rt::compare`' scope.rt::compare
changed 'a specification that is not listed' docs/DEFINITIONS.md '| `Cover.antt` |' '| `Level.antt` |' Cover.antt
changed 'a definition that is not in its file' docs/DEFINITIONS.md '`covered_lines`' '`cover`' CoveredLines.antt
changed 'a dependency that nothing names' crates.txt 'naga_oil_rename: ' 'naga_oil_rename: naga_oil_form ' naga_oil_form
changed 'a dependency that is left out' crates.txt 'naga_oil_palette: naga_oil_ir' 'naga_oil_palette:' naga_oil_ir
changed 'an edit that is left out' docs/PROMISES.md '`state_forgotten`' 'state forgotten' edit
changed 'a module that is left out' docs/ARCHITECTURE.md '`scope`' 'scope' scope
changed 'a README that is too long' tests/lists.py 'README_LIMIT = 10000' 'README_LIMIT = 10' README.md
exit "$status"
