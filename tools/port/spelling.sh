#!/bin/bash
# Brings the repository's own names to today's spelling: spelling.sh COMMIT, at the top of a checkout in which the kit's port.py has just run, nothing committed since.
# COMMIT is the one before port.py. First the must-fail edits whose text port.py turned away from (edits.py), then every name of specs/ and proofs/
# with the places that cite it (respell.py, which writes the table target/port/table.tsv), then the fields that it leaves in hand-written proofs (fix_fields.py).
set -eu
here=$(cd "$(dirname "$0")" && pwd -P)
mkdir -p target/port
python3 "$here/edits.py" "${1:?the commit before port.py}" | tail -n 2
git add -A
python3 "$here/respell.py" --dashes --base "$1" --table target/port/table.tsv --docs README.md docs/*.md
python3 "$here/fix_fields.py" target/port/table.tsv | tail -n 1
