//! How far a command has come.
use crate::say;
use std::io::IsTerminal;
use std::time::{Duration, Instant};

/// A line on a terminal that is written over; nothing elsewhere. How many files there are is not known before the last is found.
pub struct Bar {
    pub shown: bool,
    done: u64,
    began: Instant,
    drawn: Option<Instant>,
    on: bool,
}

impl Bar {
    pub fn new() -> Bar {
        Bar { shown: std::io::stderr().is_terminal(), done: 0, began: Instant::now(), drawn: None, on: false }
    }

    /// One more is done; so many were refused.
    pub fn step(&mut self, refused: u64) {
        self.done += 1;
        let due = self.drawn.is_none_or(|at| at.elapsed() > Duration::from_millis(100));
        if self.shown && due {
            let a_second = self.done as f64 / self.began.elapsed().as_secs_f64().max(0.001);
            let [refused, a_second] = [refused, a_second as u64].map(say::number);
            say::aside(&format!("\r{} done, {refused} refused, {a_second} a second\x1b[K", say::count(self.done, "file")));
            (self.drawn, self.on) = (Some(Instant::now()), true);
        }
    }

    pub fn clear(&mut self) {
        if std::mem::take(&mut self.on) {
            say::aside("\r\x1b[K");
        }
    }
}
