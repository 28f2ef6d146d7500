//! The nanoseconds of a visit by Rust's mutex, alone or with the two events of 24 bytes that a monitor records: visit
//! plain|records CHUNKS
//!
//! bench/c_library builds it, and compares. It is measured as bench/c_library.c measures a visit: the least of CHUNKS
//! chunks of 2,000.
use std::hint::black_box;
use std::sync::Mutex;
use std::time::Instant;

const CHUNK: usize = 2000;

#[derive(Clone, Default)]
#[repr(C)]
struct Event {
    call: u8,
    seat: u32,
    argument: u32,
    reply: u64,
}

struct Guarded {
    count: u64,
    events: Vec<Event>,
}

fn visit(lock: &Mutex<Guarded>, records: bool) {
    let mut guarded = lock.lock().unwrap();
    if records {
        guarded.events.push(Event { call: 0, seat: 0, argument: 0, reply: 0 });
    }
    guarded.count += 1;
    if records {
        guarded.events.push(Event { call: 2, seat: 0, argument: 0, reply: 0 });
    }
}

fn main() {
    let words: Vec<String> = std::env::args().collect();
    let (records, chunks) = (words[1] == "records", words[2].parse::<usize>().unwrap());
    assert_eq!(std::mem::size_of::<Event>(), 24);
    // The memory of the events is there, and touched, before the first visit.
    let mut events = vec![Event { seat: 1, ..Event::default() }; 2 * chunks * CHUNK];
    events.clear();
    let lock = Mutex::new(Guarded { count: 0, events });
    std::thread::spawn(|| loop {
        std::thread::park();
    });
    let mut least = f64::MAX;
    for _ in 0..chunks {
        let began = Instant::now();
        for _ in 0..CHUNK {
            visit(black_box(&lock), records);
        }
        least = least.min(began.elapsed().as_nanos() as f64 / CHUNK as f64);
    }
    let guarded = lock.lock().unwrap();
    assert_eq!(guarded.count as usize, chunks * CHUNK);
    let numbers = |it: &Event| u64::from(it.call) + u64::from(it.seat) + u64::from(it.argument) + it.reply;
    let sum: u64 = guarded.events.iter().map(numbers).sum();
    black_box(sum);
    println!("{least:.6}");
}
