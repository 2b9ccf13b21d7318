#!/bin/sh
# Times `parse`, in a folder of its own outside the repository: run it from the repository's top.
set -e
here=$(pwd)
work=$(mktemp -d)
mkdir -p "$work/crates/parse_bench/src" "$work/crates/parse_bench/proofs"
cp "$here/HANDLES" "$work/"
for crate in field_schema query_tree query_lexemes query_text; do
    mkdir "$work/crates/$crate"
    cp -r "$here/crates/$crate/src" "$here/crates/$crate/specs" "$here/crates/$crate/proofs" "$work/crates/$crate/"
    sed -n "/^$crate:/p" "$here/crates.txt" >> "$work/crates.txt"
done
printf 'parse_bench: field_schema query_tree query_lexemes query_text sqlite_items serde_json\n' >> "$work/crates.txt"
cp "$here/bench/query_text/turns.txt" "$work/crates/parse_bench/src/main.rt"
: > "$work/crates/parse_bench/proofs/Lib.antt"
(cd "$work/crates/parse_bench" && rt run)
"$work/crates/parse_bench/out/parse_bench"
rm -rf "$work"
