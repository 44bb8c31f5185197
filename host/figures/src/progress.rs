//! Progress on standard error, when a person is watching and the work is long.

use std::io::{IsTerminal, stderr};
use std::sync::atomic::{AtomicU64, AtomicUsize, Ordering::Relaxed};
use std::sync::mpsc::{Receiver, RecvTimeoutError, channel};
use std::thread;
use std::time::Duration;

use crate::say::put;

/// How far the work has come.
#[derive(Debug, Default)]
pub struct Progress {
    lines: AtomicU64,
    points: AtomicUsize,
    expected: AtomicUsize,
}

impl Progress {
    /// So many more lines are read.
    pub fn read(&self, lines: u64) {
        self.lines.fetch_add(lines, Relaxed);
    }

    /// So many more output times are to be worked out.
    pub fn expect(&self, points: usize) {
        self.expected.fetch_add(points, Relaxed);
    }

    /// So many more of them are.
    pub fn worked_out(&self, points: usize) {
        self.points.fetch_add(points, Relaxed);
    }

    /// Does the work, and shows each half second how far it has come, from the first second on. A
    /// thread for that which cannot start is done without.
    pub fn shown<T>(&self, work: impl FnOnce(&Progress) -> T) -> T {
        if !stderr().is_terminal() {
            return work(self);
        }
        let (done, wait) = channel();
        thread::scope(|scope| {
            let shown = thread::Builder::new().spawn_scoped(scope, || self.show(wait));
            let result = work(self);
            drop((done, shown));
            result
        })
    }

    /// Shows how far the work has come until it is done.
    fn show(&self, done: Receiver<()>) {
        let mut pause = Duration::from_secs(1);
        while done.recv_timeout(pause) == Err(RecvTimeoutError::Timeout) {
            pause = Duration::from_millis(500);
            put(&format!("\r{} ", self.line()));
        }
        if pause < Duration::from_secs(1) {
            put("\r\x1b[K");
        }
    }

    fn line(&self) -> String {
        let millions = self.lines.load(Relaxed) as f64 / 1e6;
        let (points, expected) = (self.points.load(Relaxed), self.expected.load(Relaxed));
        let lines = format!("{millions:.1} million lines read");
        match expected {
            0 => lines,
            _ => format!("{lines}, {points} of {expected} output times worked out"),
        }
    }
}

#[cfg(test)]
mod tests {
    use super::*;

    #[test]
    fn output_times_are_counted() {
        let progress = Progress::default();
        progress.read(1_250_000);
        assert_eq!(progress.line(), "1.2 million lines read");
        progress.expect(1000);
        progress.expect(500);
        progress.worked_out(7);
        progress.worked_out(200);
        let line = "1.2 million lines read, 207 of 1500 output times worked out";
        assert_eq!(progress.line(), line);
    }
}
