#!/bin/sh
# Opens a thin text of so many bytes (a mebibyte where none is said) and commits one other name, three times: microseconds.
set -e
cd "$(dirname "$0")"
text=$(mktemp)
yes 'struct some_name;' | head -c "${1:-1048576}" >"$text"
(cd ../crates/document_speed && rt run <stdin >/dev/null 2>&1)
for run in 1 2 3; do
    ../crates/document_speed/out/document_speed <"$text"
done
rm "$text"
