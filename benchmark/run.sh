#!/bin/bash
# Measures the proved report against check.rs: builds both, writes dockets into a folder, and runs both on each in turn.
#
#   benchmark/run.sh [PROGRAM]      PROGRAM instead of the report that crates/report makes
#
# ROUNDS (5) is how often each is run, FOLDER (a new one, removed afterwards) where programs and dockets go.
set -e
here=$(cd "$(dirname "$0")" && pwd)
if [ -z "$FOLDER" ]; then
    FOLDER=$(mktemp -d)
    trap 'rm -rf "$FOLDER"' EXIT
fi
mkdir -p "$FOLDER"
rustc --edition 2021 -C opt-level=3 -o "$FOLDER/check" "$here/check.rs"
program=$1
if [ -z "$program" ]; then
    program=$here/../crates/report/out/report
    "$here/../buttesieve" "$here/../examples/two_carriers" > /dev/null
fi

docket() {
    [ -e "$FOLDER/$1" ] || python3 "$here/generate.py" "$FOLDER/$1" "${@:2}"
}
docket small --zones 3 --transitions 2
docket plain_1 --zones 1
docket plain_8 --zones 8
docket plain
docket marked --kind marked
docket void --void
python3 "$here/measure.py" "${ROUNDS:-5}" "$program" "$FOLDER/check" "$FOLDER"/{small,plain_1,plain_8,plain,marked,void}
