// Forty seats, one after the other, or ten conditions; then one of them waits for ever: beyond FILE [conditions].
#[path = "../rust/monk_log.rs"]
#[allow(dead_code)]
mod monk_log;

use std::path::PathBuf;
use std::sync::Arc;
use std::time::Duration;

fn hang<const CONDITIONS: usize>(path: PathBuf, seats: usize) {
    let monitor: Arc<monk_log::Monitor<(), CONDITIONS>> = Arc::new(monk_log::Monitor::new(()));
    monitor.end_after(Duration::from_millis(300), path, seats, "buffer 1".to_string());
    for seat in 0..seats {
        monitor.enter(seat);
    }
    monitor.enter(0).wait(CONDITIONS - 1);
}

fn main() {
    let mut words = std::env::args().skip(1);
    let path = words.next().unwrap().into();
    match words.next() {
        Some(_) => hang::<10>(path, 1),
        None => hang::<2>(path, 40),
    }
}
