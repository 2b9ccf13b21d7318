#!/bin/sh
# Times indexing, commits and queries beside a plain program of std, in a folder of its own outside the repository: run
# it from the repository's top. The crates are proved there first, which takes some minutes where no check kept them.
set -e
here=$(pwd)
work=$(mktemp -d)
names="field_schema query_tree query_lexemes query_text doc_sets doc_model segment_postings query_eval"
for name in $names; do
    mkdir -p "$work/crates/$name"
    for part in src specs proofs; do
        if [ -d "$here/crates/$name/$part" ]; then cp -r "$here/crates/$name/$part" "$work/crates/$name/"; fi
    done
    grep "^$name:" "$here/crates.txt" >> "$work/crates.txt"
done
cp "$here/HANDLES" "$work/"
view="$work/crates/queries_bench"
mkdir -p "$view/src"
echo "queries_bench: $names sqlite_items serde_json" >> "$work/crates.txt"
cp "$here/bench/query_eval/queries.txt" "$view/src/main.rt"
rustc --edition 2024 -O "$here/bench/query_eval/main.rs" -o "$work/plain"
(cd "$view" && rt run > "$work/log.txt" 2>&1) || { cat "$work/log.txt"; exit 1; }
# The most memory that a program held at once, in MiB.
held() {
    python3 -c 'import resource, subprocess, sys
subprocess.run(sys.argv[1:], stdout=subprocess.DEVNULL)
print(resource.getrusage(resource.RUSAGE_CHILDREN).ru_maxrss // 1024, "MiB")' "$@"
}
for round in 1 2 3; do
    echo "view, round $round"
    "$view/out/queries_bench"
    echo "plain, round $round"
    "$work/plain"
done
for count in 20000 200000; do
    echo "$count documents in a view: $(held "$view/out/queries_bench" $count); alone: $(held "$view/out/queries_bench" $count alone)"
    echo "the same plain: $(held "$work/plain" $count); alone: $(held "$work/plain" $count alone)"
done
rm -rf "$work"
