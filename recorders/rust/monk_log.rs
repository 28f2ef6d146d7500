//! Records one monitor of a `std::sync::Mutex` and its `Condvar`s. The thread that holds the mutex writes each line,
//! except signals by seats that are outside: they are noted with their place. `write` writes the log, and beside it
//! the places in the source from which its lines come: all but each `leave`, which is written when an `Inside` is
//! dropped.
//!
//! recorders/README.md says what a recorder can't see.

use std::fmt::Arguments;
use std::fs::OpenOptions;
use std::io::{self, Write as _};
use std::ops::{Deref, DerefMut};
use std::panic::Location;
use std::path::{Path, PathBuf};
use std::process::exit;
use std::sync::atomic::{AtomicUsize, Ordering};
use std::sync::{Arc, Condvar, Mutex, MutexGuard};
use std::thread;
use std::time::Duration;

/// Takes the place of a `Mutex<T>` and its conditions, which are numbered from 0.
pub struct Monitor<T, const CONDITIONS: usize> {
    inner: Mutex<Recorded<T>>,
    conditions: [Condvar; CONDITIONS],
    // how many lines there are, or ENDED
    count: AtomicUsize,
    // held for each line of a wait, and for a signal from outside together with its call
    order: Mutex<Outside>,
}

type Site = &'static Location<'static>;

// A line, and the place from which it comes.
#[derive(Clone)]
struct Line {
    text: String,
    site: Option<Site>,
}

// Signals by seats that are outside, and how many lines there are before each.
#[derive(Default)]
struct Outside {
    signals: Vec<(usize, Line)>,
    left_out: usize,
}

struct Recorded<T> {
    lines: Vec<Line>,
    // why no more lines are written, if so
    stopped: Option<&'static str>,
    data: T,
}

// The limits of a log.
const SEATS: usize = 32;
const MOST_CONDITIONS: usize = 8;
const STATUS_LATE: i32 = 124;
const ENDED: usize = usize::MAX;

/// A seat that is inside; it leaves when this is dropped.
pub struct Inside<'a, T, const CONDITIONS: usize> {
    monitor: &'a Monitor<T, CONDITIONS>,
    seat: usize,
    // (None only while it waits)
    guard: Option<MutexGuard<'a, Recorded<T>>>,
}

impl<T, const CONDITIONS: usize> Monitor<T, CONDITIONS> {
    pub fn new(data: T) -> Self {
        let lines = Vec::new();
        let conditions = std::array::from_fn(|_| Condvar::new());
        let many = "there are more than 8 conditions, and a log has no more";
        let stopped = (CONDITIONS > MOST_CONDITIONS).then_some(many);
        let count = AtomicUsize::new(if stopped.is_some() { ENDED } else { 0 });
        let inner = Mutex::new(Recorded { lines, stopped, data });
        Monitor { inner, conditions, count, order: Mutex::default() }
    }

    /// Comes in. Each thread has a seat of its own; seats count from 0.
    #[track_caller]
    pub fn enter(&self, seat: usize) -> Inside<'_, T, CONDITIONS> {
        let guard = Some(self.inner.lock().unwrap());
        let mut inside = Inside { monitor: self, seat, guard };
        inside.put("enter", format_args!(""), Some(Location::caller()));
        inside
    }

    /// A signal by a seat that is outside.
    #[track_caller]
    pub fn notify_one(&self, seat: usize, condition: usize) {
        self.tell("signal", seat, condition, Condvar::notify_one);
    }

    /// A signal to all by a seat that is outside.
    #[track_caller]
    pub fn notify_all(&self, seat: usize, condition: usize) {
        self.tell("broadcast", seat, condition, Condvar::notify_all);
    }

    // The thread that it serves has written that it waits, and can't write yet that it goes on.
    #[track_caller]
    fn tell(&self, verb: &str, seat: usize, condition: usize, call: fn(&Condvar)) {
        let condvar = &self.conditions[condition];
        let mut outside = self.order.lock().unwrap();
        let place = self.count.load(Ordering::Relaxed);
        if seat >= SEATS || place == ENDED {
            outside.left_out += 1;
        } else {
            let text = format!("{verb} {seat} {condition}");
            outside.signals.push((place, Line { text, site: Some(Location::caller()) }));
        }
        call(condvar);
    }

    // The lines, with the signals from outside at their places.
    fn merged(&self) -> Vec<Line> {
        let (inner, outside) = (self.inner.lock().unwrap(), self.order.lock().unwrap());
        let mut all = Vec::new();
        let mut written = 0;
        for (place, line) in &outside.signals {
            all.extend_from_slice(&inner.lines[written..*place]);
            all.push(line.clone());
            written = *place;
        }
        all.extend_from_slice(&inner.lines[written..]);
        all
    }

    /// The log so far, with `seats` seats; `object` is the object and its size, as `buffer 4`.
    pub fn text(&self, seats: usize, object: &str) -> String {
        Self::text_of(&self.merged(), seats, object)
    }

    fn text_of(lines: &[Line], seats: usize, object: &str) -> String {
        let (seats, conditions) = (seats.min(SEATS), CONDITIONS.min(MOST_CONDITIONS));
        let mut text = format!("log 1 {seats} {conditions} {object}\n");
        lines.iter().for_each(|line| text += &format!("{}\n", line.text));
        text
    }

    // What is written beside the log: the places from which its lines come.
    fn names(lines: &[Line]) -> String {
        let (mut sites, mut numbers): (Vec<String>, _) = (Vec::new(), "lines".to_string());
        for line in lines {
            let number = line.site.map_or(0, |site| number_of(&mut sites, place_of(site)));
            numbers += &format!(" {number}");
        }
        let rows = sites.iter().enumerate().map(|(at, place)| format!("site {} {place}\n", at + 1));
        rows.collect::<String>() + &numbers + "\n"
    }

    fn write_with(&self, path: &Path, seats: usize, object: &str, end: &str) -> io::Result<()> {
        let lines = self.merged();
        write_new(path, &Self::text_of(&lines, seats, object))?;
        write_new(&PathBuf::from(format!("{}.names", path.display())), &(end.to_string() + &Self::names(&lines)))
    }

    /// Writes the log so far into a new file, and `PATH.names` beside it.
    pub fn write(&self, path: &Path, seats: usize, object: &str) -> io::Result<()> {
        self.write_with(path, seats, object, "")
    }

    /// What was seen, in words.
    pub fn summary(&self) -> String {
        let (inner, outside) = (self.inner.lock().unwrap(), self.order.lock().unwrap());
        let (noted, left_out) = (outside.signals.len(), outside.left_out);
        let mut said = format!("{} lines, {CONDITIONS} conditions", inner.lines.len() + noted);
        if let Some(why) = inner.stopped {
            said += &format!("; it ends early, since {why}");
        }
        if noted + left_out > 0 {
            said += &format!("; signals without the mutex: {}", noted + left_out);
        }
        if left_out > 0 {
            said += &format!(", left out: {left_out}");
        }
        said
    }

    // Whether the mutex becomes free in a moment.
    fn comes_free(&self) -> bool {
        (0..100).any(|_| {
            let is_free = self.inner.try_lock().is_ok();
            if !is_free {
                thread::sleep(Duration::from_millis(1));
            }
            is_free
        })
    }

    /// For a program that hangs: after that time its log is written into a new file, and it ends with status 124.
    pub fn end_after(self: &Arc<Self>, time: Duration, path: PathBuf, seats: usize, object: String)
    where
        T: Send + 'static,
    {
        let monitor = Arc::clone(self);
        thread::spawn(move || {
            thread::sleep(time);
            if !monitor.comes_free() {
                eprintln!("monk: {}: no log, since a thread keeps the mutex", path.display());
                exit(STATUS_LATE);
            }
            match monitor.write_with(&path, seats, &object, "ended after MONK_SECONDS\n") {
                Ok(()) => eprintln!("monk: {}: {}", path.display(), monitor.summary()),
                Err(error) => eprintln!("monk: {}: no log, since {error}", path.display()),
            }
            exit(STATUS_LATE);
        });
    }
}

fn write_new(path: &Path, text: &str) -> io::Result<()> {
    OpenOptions::new().write(true).create_new(true).open(path)?.write_all(text.as_bytes())
}

fn place_of(site: Site) -> String {
    let name = Path::new(site.file()).file_name().unwrap_or_default();
    format!("{}:{}", name.to_string_lossy(), site.line())
}

// The number of a place, from 1.
fn number_of(sites: &mut Vec<String>, place: String) -> usize {
    let known = sites.iter().position(|site| *site == place);
    known.unwrap_or_else(|| {
        sites.push(place);
        sites.len() - 1
    }) + 1
}

impl<T, const CONDITIONS: usize> Inside<'_, T, CONDITIONS> {
    fn put(&mut self, verb: &str, numbers: Arguments<'_>, site: Option<Site>) {
        let seat = self.seat;
        let Some(guard) = &mut self.guard else { return };
        if seat >= SEATS && guard.stopped.is_none() {
            guard.stopped = Some("there are more than 32 threads, and a log has no more seats");
        }
        // the lines before one that isn't written are a log too
        let count = if guard.stopped.is_none() {
            guard.lines.push(Line { text: format!("{verb} {seat}{numbers}"), site });
            guard.lines.len()
        } else {
            ENDED
        };
        self.monitor.count.store(count, Ordering::Relaxed);
    }

    // A line of a wait: on the right side of each signal from outside.
    #[track_caller]
    fn put_in_order(&mut self, verb: &str, numbers: Arguments<'_>) {
        let _order = self.monitor.order.lock().unwrap();
        self.put(verb, numbers, Some(Location::caller()));
    }

    /// Reports an operation on the data: its code, its argument and its reply (docs/MONITORS.md).
    #[track_caller]
    pub fn act(&mut self, code: u8, arg: u32, reply: u64) {
        self.put("act", format_args!(" {code} {arg} {reply}"), Some(Location::caller()));
    }

    #[track_caller]
    pub fn wait(&mut self, condition: usize) {
        self.put_in_order("wait", format_args!(" {condition}"));
        let guard = self.guard.take().unwrap();
        self.guard = Some(self.monitor.conditions[condition].wait(guard).unwrap());
        self.put_in_order("resume", format_args!(""));
    }

    /// Waits for that time at most; returns whether the wait ended before.
    #[track_caller]
    pub fn wait_timeout(&mut self, condition: usize, time: Duration) -> bool {
        self.put_in_order("wait", format_args!(" {condition}"));
        let guard = self.guard.take().unwrap();
        let (guard, end) = self.monitor.conditions[condition].wait_timeout(guard, time).unwrap();
        self.guard = Some(guard);
        self.put_in_order(if end.timed_out() { "lapse" } else { "resume" }, format_args!(""));
        !end.timed_out()
    }

    #[track_caller]
    pub fn notify_one(&mut self, condition: usize) {
        self.put("signal", format_args!(" {condition}"), Some(Location::caller()));
        self.monitor.conditions[condition].notify_one();
    }

    #[track_caller]
    pub fn notify_all(&mut self, condition: usize) {
        self.put("broadcast", format_args!(" {condition}"), Some(Location::caller()));
        self.monitor.conditions[condition].notify_all();
    }
}

impl<T, const CONDITIONS: usize> Drop for Inside<'_, T, CONDITIONS> {
    fn drop(&mut self) {
        self.put("leave", format_args!(""), None);
    }
}

impl<T, const CONDITIONS: usize> Deref for Inside<'_, T, CONDITIONS> {
    type Target = T;

    fn deref(&self) -> &T {
        &self.guard.as_ref().unwrap().data
    }
}

impl<T, const CONDITIONS: usize> DerefMut for Inside<'_, T, CONDITIONS> {
    fn deref_mut(&mut self) -> &mut T {
        &mut self.guard.as_mut().unwrap().data
    }
}
