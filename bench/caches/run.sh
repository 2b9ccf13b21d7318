#!/bin/sh
# Times a hit of the filter cache beside a map and a list of std, in a folder of its own outside the repository: run it
# from the repository's top. The crates are proved there first, which takes some minutes.
set -e
here=$(pwd)
work=$(mktemp -d)
for name in field_schema query_tree doc_sets cache_machine cache_cells filter_cache; do
    mkdir -p "$work/crates/$name"
    for part in src specs proofs; do
        if [ -d "$here/crates/$name/$part" ]; then cp -r "$here/crates/$name/$part" "$work/crates/$name/"; fi
    done
    grep "^$name:" "$here/crates.txt" >> "$work/crates.txt"
done
cp "$here/HANDLES" "$work/"
mkdir -p "$work/crates/caches_bench/src"
echo 'caches_bench: field_schema query_tree doc_sets cache_machine cache_cells filter_cache sqlite_items' >> "$work/crates.txt"
cp "$here/bench/caches/hits.txt" "$work/crates/caches_bench/src/main.rt"
rustc --edition 2024 -O "$here/bench/caches/main.rs" -o "$work/std_caches"
for name in field_schema query_tree doc_sets cache_machine cache_cells filter_cache; do
    (cd "$work/crates/$name" && rt check > "$work/log.txt" 2>&1) || { cat "$work/log.txt"; exit 1; }
done
(cd "$work/crates/caches_bench" && rt run > "$work/log.txt" 2>&1) || { cat "$work/log.txt"; exit 1; }
for round in 1 2 3; do
    "$work/crates/caches_bench/out/caches_bench"
    "$work/std_caches"
done
rm -rf "$work"
