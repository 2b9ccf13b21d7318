#!/bin/sh
# Times the cells beside std's Mutex, in a folder of its own outside the repository: run it from the repository's top.
set -e
here=$(pwd)
work=$(mktemp -d)
mkdir -p "$work/crates/view_cells" "$work/crates/cells_bench/src" "$work/crates/cells_bench/proofs/turns"
cp "$here/HANDLES" "$work/"
cp -r "$here/crates/view_cells/src" "$here/crates/view_cells/specs" "$here/crates/view_cells/proofs" "$work/crates/view_cells/"
printf 'view_cells: atomic_table\ncells_bench: view_cells\n' > "$work/crates.txt"
cp "$here/bench/view_cells/turns.txt" "$work/crates/cells_bench/src/main.rt"
: > "$work/crates/cells_bench/proofs/Lib.antt"
cat > "$work/crates/cells_bench/proofs/turns/Invariants.antt" <<'END'
use Rattle.view_cells.specs.Seats.{IsIdle}
use Rattle.cells_bench.proofs.turns.Given as goal

abbrev pub invariant-loop : goal.invariant-loop
invariant-loop g l = IsIdle l.seat
END
rustc --edition 2024 -O "$here/bench/view_cells/main.rs" -o "$work/mutex"
(cd "$work/crates/cells_bench" && rt run > /dev/null 2>&1)
for round in 1 2 3; do
    "$work/crates/cells_bench/out/cells_bench"
    "$work/mutex"
done
rm -rf "$work"
