//! As many threads clone an `Arc` so often each, and drop the clone.
//!
//! `plain shared THREADS TIMES` clones one `Arc` under an `RwLock`, and `plain own THREADS TIMES` has each
//! thread clone an `Arc` of its own, which shows what the machine gives to threads that share nothing.
use std::env::args;
use std::hint::black_box;
use std::sync::{Arc, RwLock};
use std::thread;

fn clone_shared(shown: &RwLock<Arc<u64>>, times: u64) {
    for _ in 0..times {
        black_box(Arc::clone(&shown.read().expect("no panic")));
    }
}

fn clone_own(times: u64) {
    let own = Arc::new(times);
    for _ in 0..times {
        black_box(Arc::clone(black_box(&own)));
    }
}

fn main() {
    let arguments: Vec<String> = args().skip(1).collect();
    let [kind, threads, times] = &arguments[..] else {
        panic!("plain KIND THREADS TIMES");
    };
    let threads: u64 = threads.parse().expect("a number");
    let times: u64 = times.parse().expect("a number");
    let shown = RwLock::new(Arc::new(times));
    thread::scope(|scope| {
        for _ in 0..threads {
            scope.spawn(|| match kind.as_str() {
                "shared" => clone_shared(&shown, times),
                _ => clone_own(times),
            });
        }
    });
}
