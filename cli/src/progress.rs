//! How far the work on a large file has come, on a terminal.

use crate::input::Input;
use crate::terminal;
use std::sync::atomic::Ordering;
use std::sync::mpsc::{self, RecvTimeoutError, Sender};
use std::thread::{self, JoinHandle};
use std::time::{Duration, Instant};

/// Work on a file of more bytes than these is shown.
const LARGE: u64 = 64 << 20;

/// After so long it is shown, and then anew.
const PAUSE: Duration = Duration::from_millis(200);

/// What is shown of a work.
pub enum Shown {
    /// The share of the input that was taken, the rate and the time left.
    Share,
    /// A name and the seconds run: of a work that is one call of the library.
    Seconds(&'static str),
}

/// A line on standard error, which is renewed until this is dropped; none where none may be shown.
pub struct Progress(Option<(Sender<()>, JoinHandle<()>)>);

impl Progress {
    /// Of the work on an input, which begins now.
    pub fn of(input: &Input, shown: Shown) -> Progress {
        let size = input.size().unwrap_or(0);
        if size <= LARGE || !terminal::may_show() {
            return Progress(None);
        }
        let taken = input.taken();
        let (ending, ended) = mpsc::channel();
        let begun = Instant::now();
        let thread = thread::Builder::new().spawn(move || {
            while ended.recv_timeout(PAUSE) == Err(RecvTimeoutError::Timeout) {
                let seconds = begun.elapsed().as_secs_f64();
                terminal::renew(&match shown {
                    Shown::Share => share_of(taken.load(Ordering::Relaxed), size, seconds),
                    Shown::Seconds(name) => format!("{name}, {}", duration(seconds)),
                });
            }
            terminal::erase();
        });
        Progress(thread.ok().map(|thread| (ending, thread)))
    }
}

impl Drop for Progress {
    fn drop(&mut self) {
        if let Some((ending, thread)) = self.0.take() {
            drop(ending);
            let _ = thread.join();
        }
    }
}

/// How many of `size` bytes were taken in these seconds, and, where that tells it, how fast and how
/// long the others will take.
fn share_of(taken: u64, size: u64, seconds: f64) -> String {
    let share = taken as f64 / size as f64 * 100.0;
    let share = format!("{share:.0}% of {:.0} MB", size as f64 / 1e6);
    if taken == 0 {
        return share;
    }
    let rate = taken as f64 / seconds;
    let left = duration(size.saturating_sub(taken) as f64 / rate);
    format!("{share}, {:.0} MB/s, {left} left", rate / 1e6)
}

/// Seconds, in words.
fn duration(seconds: f64) -> String {
    let seconds = seconds.round() as u64;
    match (seconds / 3600, seconds / 60 % 60, seconds % 60) {
        (0, 0, s) => format!("{s} s"),
        (0, m, s) => format!("{m} min {s} s"),
        (h, m, _) => format!("{h} h {m} min"),
    }
}
