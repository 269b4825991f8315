//! A line on the terminal while a long day is read.

use std::io::{self, BufRead, IsTerminal, Read, Write};
use std::time::{Duration, Instant};

/// A source that tells how far it is, where standard error is a terminal and the day takes long.
pub struct Watched<R> {
    source: R,
    /// What it is read for.
    doing: &'static str,
    read: u64,
    /// Of how many bytes.
    of: u64,
    shown: Option<Instant>,
    said: bool,
}

const FIRST: Duration = Duration::from_millis(700);
const NEXT: Duration = Duration::from_millis(200);

impl<R: BufRead> Watched<R> {
    pub fn new(source: R, doing: &'static str, of: u64) -> Self {
        let shown = io::stderr().is_terminal().then(Instant::now);
        Self { source, doing, read: 0, of, shown, said: false }
    }

    fn tell(&mut self) {
        let wait = if self.said { NEXT } else { FIRST };
        if self.shown.is_none_or(|shown| shown.elapsed() < wait) {
            return;
        }
        self.shown = Some(Instant::now());
        self.said = true;
        let read = self.read as f64 / 1e6;
        let part = (100 * self.read).checked_div(self.of);
        let part = part.map_or(String::new(), |part| format!(", {part} %"));
        let _ = write!(io::stderr(), "\r\x1b[K{}: {read:.1} MB read{part}", self.doing);
    }
}

impl<R> Drop for Watched<R> {
    fn drop(&mut self) {
        if self.said {
            let _ = write!(io::stderr(), "\r\x1b[K");
        }
    }
}

impl<R: BufRead> Read for Watched<R> {
    fn read(&mut self, bytes: &mut [u8]) -> io::Result<usize> {
        self.source.read(bytes)
    }
}

impl<R: BufRead> BufRead for Watched<R> {
    fn fill_buf(&mut self) -> io::Result<&[u8]> {
        self.source.fill_buf()
    }

    fn consume(&mut self, used: usize) {
        self.source.consume(used);
        let before = self.read >> 14;
        self.read += used as u64;
        // The clock is asked every 16 kB, not for every line.
        if self.read >> 14 != before {
            self.tell();
        }
    }
}
