//! What std's Mutex costs for the same work: to lock, add one and unlock, alone and between two threads.

use std::hint::black_box;
use std::sync::Mutex;
use std::thread;
use std::time::{Duration, Instant};

fn increment_times(counter: &Mutex<u64>, times: u64) {
    for _ in 0..times {
        let mut count = counter.lock().unwrap();
        *count = black_box(count.wrapping_add(1));
    }
}

fn print_time(what: &str, counted: u64, took: Duration) {
    let each = took.as_nanos() / u128::from(counted.max(1));
    println!("{what}: {counted} counted, {each} ns each");
}

fn main() {
    let times = std::env::args().nth(1).and_then(|word| word.parse().ok()).unwrap_or(1000);
    let counter = Mutex::new(0);
    let start = Instant::now();
    increment_times(&counter, times);
    print_time("alone", *counter.lock().unwrap(), start.elapsed());

    let counter = Mutex::new(0);
    let start = Instant::now();
    thread::scope(|scope| {
        scope.spawn(|| increment_times(&counter, times));
        increment_times(&counter, times);
    });
    print_time("two threads", *counter.lock().unwrap(), start.elapsed());
}
