#!/bin/sh
# Times acquires and releases beside two additions of std's atomics, in a folder of its own outside the repository: run it
# from the repository's top. The desk of the tests opens and publishes.
set -e
here=$(pwd)
work=$(mktemp -d)
rows="$here/crates/table_rows"
bench="$work/crates/acquire_bench"
mkdir -p "$bench/src" "$bench/specs" "$bench/proofs"
cp "$here/HANDLES" "$work/"
for crate in registry_machine searcher_table; do
    mkdir "$work/crates/$crate"
    cp -r "$here/crates/$crate/src" "$here/crates/$crate/specs" "$here/crates/$crate/proofs" "$work/crates/$crate/"
done
cat > "$work/crates.txt" <<'END'
registry_machine:
searcher_table: registry_machine atomic_table arrayvec
acquire_bench: registry_machine searcher_table atomic_table arrayvec
END
cp "$here/bench/searcher_table/acquires.txt" "$bench/src/main.rt"
cp "$rows/src/desk.rt" "$bench/src/"
cp "$rows/specs/TableTrials.antt" "$bench/specs/"
cp -r "$rows/proofs/Chain.antt" "$rows/proofs/Turns.antt" "$rows/proofs/desk" "$bench/proofs/"
echo 'pub mod TableTrials' > "$bench/specs/Lib.antt"
printf 'mod Chain\nmod Turns\n' > "$bench/proofs/Lib.antt"
find "$bench" -type f -exec sed -i 's/Rattle\.table_rows\./Rattle.acquire_bench./g' {} +
rustc --edition 2024 -O "$here/bench/searcher_table/main.rs" -o "$work/additions"
(cd "$bench" && rt run > "$work/log" 2>&1) || tail -40 "$work/log"
for round in 1 2 3; do
    "$bench/out/acquire_bench"
    "$work/additions"
done
rm -rf "$work"
