//! How far a run is: a bar with the time left on a terminal, else a line every 10 seconds, or nothing.

use indicatif::{ProgressBar, ProgressStyle};
use std::io::{IsTerminal, Write};
use std::sync::Arc;
use std::sync::atomic::{AtomicU64, Ordering};
use std::sync::mpsc::{RecvTimeoutError, Sender, channel};
use std::time::{Duration, Instant};

/// Between two lines.
const EVERY: Duration = Duration::from_secs(10);

/// Told of each piece of work that is done. What it shows ends when it is dropped.
pub struct Progress {
    done: Arc<AtomicU64>,
    bar: Option<ProgressBar>,
    /// Its end tells the lines' thread to stop.
    _lines: Option<Sender<()>>,
}

impl Progress {
    /// Of `total` pieces, called `what`; `quiet` shows nothing.
    pub fn new(what: &'static str, total: u64, quiet: bool) -> Progress {
        let done = Arc::new(AtomicU64::new(0));
        let terminal = std::io::stderr().is_terminal();
        let bar = (!quiet && terminal).then(|| bar(what, total));
        let lines = (!quiet && !terminal).then(|| lines(what, total, Arc::clone(&done)));
        Progress { done, bar, _lines: lines }
    }

    /// One more is done.
    pub fn step(&self) {
        self.done.fetch_add(1, Ordering::Relaxed);
        if let Some(bar) = &self.bar {
            bar.inc(1);
        }
    }
}

impl Drop for Progress {
    fn drop(&mut self) {
        if let Some(bar) = &self.bar {
            bar.finish_and_clear();
        }
    }
}

fn bar(what: &str, total: u64) -> ProgressBar {
    let bar = ProgressBar::new(total);
    let template = format!("{{bar:32}} {{pos}} of {{len}} {what}, {{eta}} left");
    if let Ok(style) = ProgressStyle::with_template(&template) {
        bar.set_style(style);
    }
    bar
}

/// A thread that says how far the run is, until the sender is gone.
fn lines(what: &'static str, total: u64, done: Arc<AtomicU64>) -> Sender<()> {
    let (sender, receiver) = channel::<()>();
    let began = Instant::now();
    std::thread::spawn(move || {
        while receiver.recv_timeout(EVERY) == Err(RecvTimeoutError::Timeout) {
            let line = line(what, total, done.load(Ordering::Relaxed), began.elapsed());
            // nobody may be reading
            let _ = writeln!(std::io::stderr(), "lezantsiro: {line}");
        }
    });
    sender
}

fn line(what: &str, total: u64, done: u64, taken: Duration) -> String {
    match done {
        0 => format!("0 of {total} {what}"),
        _ => {
            let left = taken.as_secs_f64() * total.saturating_sub(done) as f64 / done as f64;
            format!("{done} of {total} {what}, {left:.0} s left")
        }
    }
}

#[cfg(test)]
mod tests {
    use super::*;

    #[test]
    fn lines_have_the_time_left() {
        assert_eq!(line("layers", 400, 0, EVERY), "0 of 400 layers");
        assert_eq!(line("layers", 400, 100, EVERY), "100 of 400 layers, 30 s left");
        assert_eq!(line("layers", 400, 400, EVERY), "400 of 400 layers, 0 s left");
    }
}
