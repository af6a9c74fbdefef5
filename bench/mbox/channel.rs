//! The same items through a `std::sync::mpsc` channel, whose receiver the takers share under a `Mutex`. The words are how many takers,
//! and how many items; it prints the nanoseconds until all items were taken.
use std::sync::{mpsc::sync_channel, Mutex};
use std::time::Instant;

const PLACES: usize = 256;

fn main() {
    let mut words = std::env::args().skip(1);
    let takers: u32 = words.next().unwrap().parse().unwrap();
    let items: u32 = words.next().unwrap().parse().unwrap();
    let (sender, receiver) = sync_channel::<u32>(PLACES);
    let receiver = Mutex::new(receiver);
    let start = Instant::now();
    let taken: u32 = std::thread::scope(|scope| {
        let threads: Vec<_> = (0..takers)
            .map(|_| {
                scope.spawn(|| {
                    let mut taken = 0;
                    while receiver.lock().unwrap().recv().is_ok() {
                        taken += 1;
                    }
                    taken
                })
            })
            .collect();
        for item in 0..items {
            sender.send(item).unwrap();
        }
        drop(sender);
        threads.into_iter().map(|t| t.join().unwrap()).sum()
    });
    let spent = start.elapsed();
    assert_eq!(taken, items);
    println!("{}", spent.as_nanos());
}
