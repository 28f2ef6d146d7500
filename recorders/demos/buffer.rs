//! A bounded buffer in Rust: buffer PREFIX RUNS STYLE. Its logs are PREFIX.0, PREFIX.1, ..
//!
//! - `good`: two conditions, each notified
//! - `all`: one condition, and `notify_all`
//! - `timed`: as good, with waits that run out
//! - `late`: notifies once it has left
//! - `if`: a fault: a thread that waited doesn't test again
//! - `forgotten`: a fault: a taker notifies nobody
//!
//! Putters wait on condition 0 (predicate 0 of a buffer), takers on condition 1 (predicate 1).

use std::collections::VecDeque;
use std::sync::Arc;
use std::thread;
use std::time::{Duration, Instant};

#[path = "../rust/monk_log.rs"]
#[allow(dead_code)]
mod monk_log;

const PUTTERS: usize = 3;
const TAKERS: usize = 3;
const SIZE: usize = 2;
const ITEMS: u32 = 60;
const PUT: u8 = 0;
const TAKE: u8 = 1;
const NOT_FULL: usize = 0;
const NOT_EMPTY: usize = 1;
const SHORT: Duration = Duration::from_micros(20);
const LONG: Duration = Duration::from_secs(20);
const LONG_IF_HANGING: Duration = Duration::from_millis(400);
const PAUSE: Duration = Duration::from_millis(1);

type Buffer = monk_log::Monitor<VecDeque<u32>, 2>;
type Inside<'a> = monk_log::Inside<'a, VecDeque<u32>, 2>;

#[derive(Clone, Copy, PartialEq)]
enum Style {
    Good,
    All,
    Timed,
    Late,
    If,
    Forgotten,
}

impl Style {
    fn named(name: &str) -> Style {
        match name {
            "all" => Style::All,
            "timed" => Style::Timed,
            "late" => Style::Late,
            "if" => Style::If,
            "forgotten" => Style::Forgotten,
            _ => Style::Good,
        }
    }

    fn wait_while(self, inside: &mut Inside, condition: usize, holds: fn(&VecDeque<u32>) -> bool) {
        while holds(inside) {
            match self {
                Style::Timed => drop(inside.wait_timeout(condition, SHORT)),
                Style::All => inside.wait(NOT_FULL),
                Style::If => return inside.wait(condition),
                Style::Good | Style::Late | Style::Forgotten => inside.wait(condition),
            }
        }
    }

    fn notify(self, buffer: &Buffer, seat: usize, mut inside: Inside, condition: usize) {
        match self {
            Style::All => inside.notify_all(NOT_FULL),
            Style::Late => {
                drop(inside);
                buffer.notify_one(seat, condition);
            }
            _ => inside.notify_one(condition),
        }
    }

    fn put(self, buffer: &Buffer, seat: usize, item: u32) {
        let mut inside = buffer.enter(seat);
        self.wait_while(&mut inside, NOT_FULL, |items| items.len() >= SIZE);
        inside.push_back(item);
        inside.act(PUT, item, 1);
        self.notify(buffer, seat, inside, NOT_EMPTY);
    }

    fn take(self, buffer: &Buffer, seat: usize) {
        let mut inside = buffer.enter(seat);
        self.wait_while(&mut inside, NOT_EMPTY, |items| items.is_empty());
        let item = inside.pop_front().unwrap_or(0);
        inside.act(TAKE, 0, u64::from(item) + 1);
        if self != Style::Forgotten {
            self.notify(buffer, seat, inside, NOT_FULL);
        }
    }
}

/// Writes the log of one run, even if threads hang.
fn run(style: Style, path: String) -> std::io::Result<()> {
    let buffer = Arc::new(Buffer::new(VecDeque::new()));
    let threads: Vec<_> = (0..PUTTERS + TAKERS)
        .map(|seat| {
            let buffer = buffer.clone();
            thread::spawn(move || {
                for item in 1..=ITEMS {
                    if seat < PUTTERS {
                        style.put(&buffer, seat, item);
                    } else {
                        style.take(&buffer, seat);
                    }
                }
            })
        })
        .collect();
    let may_hang = matches!(style, Style::If | Style::Forgotten);
    let end = Instant::now() + if may_hang { LONG_IF_HANGING } else { LONG };
    while Instant::now() < end && !threads.iter().all(|thread| thread.is_finished()) {
        thread::sleep(PAUSE);
    }
    buffer.write(path.as_ref(), PUTTERS + TAKERS, &format!("buffer {SIZE}"))
}

fn main() {
    let words: Vec<String> = std::env::args().collect();
    let runs: usize = words[2].parse().unwrap();
    for number in 0..runs {
        run(Style::named(&words[3]), format!("{}.{number}", words[1])).unwrap();
    }
}
