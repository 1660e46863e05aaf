//! A line on a terminal that says what is being waited for.

use std::io::{IsTerminal, Write};
use std::sync::mpsc::{channel, RecvTimeoutError};
use std::time::{Duration, Instant};

/// Whether progress is shown, on standard error.
#[derive(Clone, Copy, Debug, PartialEq, Eq)]
pub enum Progress {
    Shown,
    Silent,
}

impl Progress {
    /// Shown if standard error is a terminal; a file or a pipe stays clean.
    pub fn on_a_terminal() -> Progress {
        if std::io::stderr().is_terminal() {
            Progress::Shown
        } else {
            Progress::Silent
        }
    }

    /// Does the work. Meanwhile one line says what it is and for how many
    /// seconds it has gone on, of at most so many; the line is gone afterwards.
    pub fn during<T>(self, what: &str, most: Option<u32>, work: impl FnOnce() -> T) -> T {
        if self == Progress::Silent {
            return work();
        }
        let started = Instant::now();
        let of = most.map_or(String::new(), |most| format!(" of at most {most}"));
        let (done, over) = channel::<()>();
        std::thread::scope(|scope| {
            scope.spawn(move || loop {
                show(&format!("\r{what}: {} s{of}", started.elapsed().as_secs()));
                if over.recv_timeout(Duration::from_secs(1)) != Err(RecvTimeoutError::Timeout) {
                    // To the line's start, and everything behind it erased.
                    return show("\r\u{1b}[K");
                }
            });
            let result = work();
            drop(done);
            result
        })
    }
}

fn show(text: &str) {
    let mut terminal = std::io::stderr();
    // A terminal that is gone is told nothing.
    let _ = terminal.write_all(text.as_bytes()).and_then(|()| terminal.flush());
}
