//! The same round trips over channels of `std::sync::mpsc`: callers send their amounts to one thread, which adds them and keeps the history,
//! and answers each by the caller's own channel. The words are how many callers, and how many calls each makes; it prints nanoseconds.
use std::sync::mpsc::{sync_channel, Receiver, SyncSender};
use std::time::Instant;

const PLACES: usize = 64;

struct Question {
    by: u32,
    amount: u64,
}

struct Addition {
    by: u32,
    amount: u64,
}

/// Answers questions until no caller is left, and gives the sum and the history.
fn serve(questions: Receiver<Question>, answers: &[SyncSender<u64>]) -> (u64, Vec<Addition>) {
    let mut total = 0u64;
    let mut log = Vec::new();
    for Question { by, amount } in questions {
        total = total.wrapping_add(amount);
        log.push(Addition { by, amount });
        answers[by as usize].send(total).unwrap();
    }
    (total, log)
}

fn ask(questions: SyncSender<Question>, answers: Receiver<u64>, by: u32, calls: u64) {
    for amount in 0..calls {
        questions.send(Question { by, amount }).unwrap();
        std::hint::black_box(answers.recv().unwrap());
    }
}

fn main() {
    let mut words = std::env::args().skip(1);
    let callers: u32 = words.next().unwrap().parse().unwrap();
    let calls: u64 = words.next().unwrap().parse().unwrap();
    let (to_server, questions) = sync_channel(PLACES);
    let (to_callers, answers): (Vec<_>, Vec<_>) = (0..callers).map(|_| sync_channel(1)).unzip();
    let start = Instant::now();
    let (total, log) = std::thread::scope(|scope| {
        let server = scope.spawn(|| serve(questions, &to_callers));
        for (by, answers) in answers.into_iter().enumerate() {
            let to_server = to_server.clone();
            scope.spawn(move || ask(to_server, answers, by as u32, calls));
        }
        drop(to_server);
        server.join().unwrap()
    });
    let spent = start.elapsed();
    assert_eq!(log.len() as u64, u64::from(callers) * calls);
    assert_eq!(total, log.iter().map(|e| e.amount).sum::<u64>());
    assert!(log.iter().all(|e| e.by < callers));
    println!("{}", spent.as_nanos());
}
