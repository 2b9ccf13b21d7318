// Times locking `std::sync::Mutex` and letting it go, by one thread and by four. `run.sh` sets it beside the cells.
use std::hint::black_box;
use std::sync::Mutex;
use std::time::Instant;

const SAMPLES: u32 = 200;
const TURNS: u64 = 100_000;

// Nanoseconds of so many turns by so many threads.
fn sample(threads: u64) -> u128 {
    let value = Mutex::new(0u64);
    let start = Instant::now();
    std::thread::scope(|scope| {
        for _ in 0..threads {
            scope.spawn(|| {
                for _ in 0..TURNS / threads {
                    let mut held = black_box(&value).lock().unwrap();
                    *held = held.wrapping_add(1);
                }
            });
        }
    });
    start.elapsed().as_nanos()
}

fn main() {
    for threads in [1, 4] {
        let least = (0..SAMPLES).map(|_| sample(threads)).min().unwrap();
        println!("Mutex, {threads} threads: {} picoseconds a turn", least * 1000 / u128::from(TURNS));
    }
}
