//! The same calls at a `std::sync::Mutex` round a counter and its history. The words are how many threads, and how many calls each makes; it prints nanoseconds.
use std::sync::Mutex;
use std::time::Instant;

struct Addition {
    by: u32,
    amount: u64,
}

struct Held {
    total: u64,
    log: Vec<Addition>,
}

fn call(lock: &Mutex<Held>, by: u32, amount: u64) -> u64 {
    let mut held = lock.lock().unwrap();
    held.total = held.total.wrapping_add(amount);
    held.log.push(Addition { by, amount });
    held.total
}

fn call_often(lock: &Mutex<Held>, by: u32, calls: u64) {
    for _ in 0..calls {
        std::hint::black_box(call(lock, by, 1));
    }
}

fn main() {
    let mut words = std::env::args().skip(1);
    let threads: u32 = words.next().unwrap().parse().unwrap();
    let calls: u64 = words.next().unwrap().parse().unwrap();
    let lock = Mutex::new(Held {
        total: 0,
        log: Vec::new(),
    });
    let start = Instant::now();
    std::thread::scope(|scope| {
        // One part runs in this thread, as at the lock with a history.
        for by in 2..=threads {
            let lock = &lock;
            scope.spawn(move || call_often(lock, by, calls));
        }
        call_often(&lock, 1, calls);
    });
    let spent = start.elapsed();
    let held = lock.into_inner().unwrap();
    assert_eq!(held.log.len() as u64, u64::from(threads) * calls);
    assert_eq!(held.total, held.log.iter().map(|e| e.amount).sum::<u64>());
    assert!(held.log.iter().all(|e| (1..=threads).contains(&e.by)));
    println!("{}", spent.as_nanos());
}
