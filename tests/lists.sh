#!/bin/sh
# Compares the lists of docs/ and crates.txt with the tree: the modules in ARCHITECTURE.md, the files and names of
# definitions in DEFINITIONS.md, the rules in RULES.md, the must-fail edits in PROMISES.md, the public calls and the
# variants of errors in FROM_NAGA_OIL.md, the direct dependencies in crates.txt, code that documents show, the size of
# README.md, and the man page and completions in share. Prints what differs, and ends with status 1 if anything does. It needs Python 3.
exec python3 "$(dirname -- "$0")/lists.py"
