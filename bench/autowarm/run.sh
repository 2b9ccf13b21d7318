#!/bin/sh
# Times commits that warm their searcher, in a folder of its own outside the repository: run it from the repository's top. The
# crates are proved there first, which takes some minutes where no check kept them.
set -e
here=$(pwd)
work=$(mktemp -d)
names="rt_edge field_schema doc_model query_tree query_lexemes query_text request_form doc_sets segment_postings sort_order sort_window
    query_eval search_model reply_json cache_machine cache_cells cache_traces shared_cells view_cells filter_cache result_cache document_cache
    searcher_cells searcher_core served_index autowarm"
for name in $names; do
    mkdir -p "$work/crates/$name"
    for part in src specs proofs; do
        if [ -d "$here/crates/$name/$part" ]; then cp -r "$here/crates/$name/$part" "$work/crates/$name/"; fi
    done
    grep "^$name:" "$here/crates.txt" >> "$work/crates.txt"
done
cp "$here/HANDLES" "$work/"
bench="$work/crates/commits_bench"
mkdir -p "$bench/src"
echo commits_bench: $names atomic_table lru indexmap sqlite_items form_urlencoded serde_json >> "$work/crates.txt"
cp "$here/bench/autowarm/commits.txt" "$bench/src/main.rt"
(cd "$bench" && rt run > "$work/log.txt" 2>&1) || { cat "$work/log.txt"; exit 1; }
for round in 1 2 3; do
    "$bench/out/commits_bench"
done
rm -rf "$work"
