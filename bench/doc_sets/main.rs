// Times the sets of documents against `std::collections::BTreeSet` and a plain bitmap.
//
// From the top of the repository, after `rt lib` in crates/doc_sets_c:
//     rustc --edition 2024 -O bench/doc_sets/main.rs -L crates/doc_sets_c/out -L KIT/c \
//         -l static=doc_sets_c -l static=libc_c -o doc_sets_bench
// with the kit's folder for KIT. The result goes where `-o` says.
use std::collections::BTreeSet;
use std::hint::black_box;
use std::time::Instant;

unsafe extern "C" {
    fn doc_sets_repeat(left: *const u32, left_len: usize, right: *const u32, right_len: usize, what: u32, times: u32) -> u64;
    fn doc_sets_walk(numbers: *const u32, len: usize, times: u32) -> u64;
}

const MAX_DOCS: usize = 262_144;

// Nanoseconds of one run, the least of five tries. `run` does its work as often as it is told.
fn nanos(times: u32, mut run: impl FnMut(u32) -> u64) -> (f64, u64) {
    let mut best = f64::MAX;
    let mut sum = 0;
    for _ in 0..5 {
        let start = Instant::now();
        black_box(run(black_box(0)));
        let idle = start.elapsed();
        let start = Instant::now();
        sum = black_box(run(black_box(times)));
        let spent = start.elapsed().saturating_sub(idle);
        best = best.min(spent.as_nanos() as f64 / f64::from(times));
    }
    (best, sum)
}

fn drawn(seed: u64, count: usize) -> Vec<u32> {
    let mut state = seed;
    let mut numbers = BTreeSet::new();
    while numbers.len() < count {
        state = state.wrapping_mul(6_364_136_223_846_793_005).wrapping_add(1_442_695_040_888_963_407);
        numbers.insert(((state >> 33) % MAX_DOCS as u64) as u32);
    }
    numbers.into_iter().collect()
}

fn bitmap(numbers: &[u32]) -> Vec<u64> {
    let mut words = vec![0u64; MAX_DOCS / 64];
    for &number in numbers {
        words[number as usize / 64] |= 1 << (number % 64);
    }
    words
}

fn ones(words: &[u64]) -> u64 {
    words.iter().map(|word| u64::from(word.count_ones())).sum()
}

fn main() {
    println!("members operation    this ns    tree ns  bitmap ns  tree/this bitmap/this");
    // How many members, and how often the operations of the sets, of the trees and the walks are run.
    for (count, times, tree_times, walks) in [(10, 100_000, 2_000, 100_000), (1_000, 5_000, 200, 5_000), (200_000, 20_000, 3, 50)] {
        let (left, right) = (drawn(1, count), drawn(2, count));
        let (left_tree, right_tree): (BTreeSet<u32>, BTreeSet<u32>) = (left.iter().copied().collect(), right.iter().copied().collect());
        let (left_bits, right_bits) = (bitmap(&left), bitmap(&right));
        for (what, name) in ["and", "or", "minus"].into_iter().enumerate() {
            let this = nanos(times, |times| unsafe {
                doc_sets_repeat(left.as_ptr(), left.len(), right.as_ptr(), right.len(), what as u32, times)
            });
            let tree = nanos(tree_times, |times| {
                (0..times)
                    .map(|_| {
                        let made: BTreeSet<u32> = match what {
                            0 => black_box(&left_tree) & &right_tree,
                            1 => black_box(&left_tree) | &right_tree,
                            _ => black_box(&left_tree) - &right_tree,
                        };
                        black_box(&made).len() as u64
                    })
                    .sum()
            });
            let bits = nanos(times.min(20_000), |times| {
                (0..times)
                    .map(|_| {
                        let pairs = black_box(&left_bits).iter().zip(&right_bits);
                        let made: Vec<u64> = match what {
                            0 => pairs.map(|(a, b)| a & b).collect(),
                            1 => pairs.map(|(a, b)| a | b).collect(),
                            _ => pairs.map(|(a, b)| a & !b).collect(),
                        };
                        ones(black_box(&made))
                    })
                    .sum()
            });
            assert_eq!(this.1 / u64::from(times), tree.1 / u64::from(tree_times));
            assert_eq!(this.1 / u64::from(times), bits.1 / u64::from(times.min(20_000)));
            show(count, name, this.0, tree.0, bits.0);
        }
        let this = nanos(walks, |times| unsafe { doc_sets_walk(left.as_ptr(), left.len(), times) });
        let tree = nanos(walks, |times| (0..times).map(|_| black_box(&left_tree).iter().map(|&n| u64::from(n)).sum::<u64>()).sum());
        let bits = nanos(walks.min(20_000), |times| {
            (0..times)
                .map(|_| {
                    let mut sum = 0;
                    for (at, &word) in black_box(&left_bits).iter().enumerate() {
                        let mut rest = word;
                        while rest != 0 {
                            sum += at as u64 * 64 + u64::from(rest.trailing_zeros());
                            rest &= rest - 1;
                        }
                    }
                    sum
                })
                .sum()
        });
        assert_eq!(this.1, tree.1);
        show(count, "walk", this.0, tree.0, bits.0);
    }
}

fn show(count: usize, name: &str, this: f64, tree: f64, bits: f64) {
    println!("{count:7} {name:9} {this:10.0} {tree:10.0} {bits:10.0} {:10.2} {:11.2}", tree / this, bits / this);
}
