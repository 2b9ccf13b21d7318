// Times two additions, to a current word and to the word of the slot that it names, each in a cache line of its own, by one
// thread alone, and by four while the current word is replaced. `run.sh` sets it beside the table.
use std::sync::atomic::AtomicU64;
use std::sync::atomic::Ordering::SeqCst;
use std::time::{Duration, Instant};

const SAMPLES: u32 = 20;
const ROUNDS: u32 = 2_000_000;
const PUBLICATIONS: u64 = 100;
const APART: u64 = 10;
const SLOTS: usize = 11;

#[repr(align(64))]
struct Line(AtomicU64);

struct Words {
    current: Line,
    slots: [Line; SLOTS],
}

impl Words {
    fn new() -> Words {
        Words { current: Line(AtomicU64::new(0)), slots: std::array::from_fn(|_| Line(AtomicU64::new(0))) }
    }

    // Nanoseconds of all rounds of one thread.
    fn timed(&self) -> u128 {
        let start = Instant::now();
        for _ in 0..ROUNDS {
            let word = self.current.0.fetch_add(1, SeqCst);
            self.slots[(word >> 32) as usize % SLOTS].0.fetch_add(1, SeqCst);
        }
        start.elapsed().as_nanos()
    }

    fn publications(&self) {
        for publication in 0..PUBLICATIONS {
            std::thread::sleep(Duration::from_millis(APART));
            self.current.0.swap((publication % SLOTS as u64) << 32, SeqCst);
        }
    }
}

// Nanoseconds of the slowest of four threads.
fn together() -> u128 {
    let words = Words::new();
    std::thread::scope(|scope| {
        let threads: Vec<_> = (0..4).map(|_| scope.spawn(|| words.timed())).collect();
        words.publications();
        threads.into_iter().map(|thread| thread.join().unwrap()).max().unwrap()
    })
}

fn main() {
    let (alone, together) = (0..SAMPLES).fold((u128::MAX, u128::MAX), |least, _| {
        (Words::new().timed().min(least.0), together().min(least.1))
    });
    let each = u128::from(ROUNDS / 1000);
    println!("two additions, alone: {} picoseconds a round", alone / each);
    println!("two additions, 4 threads: {} picoseconds a round", together / each);
}
