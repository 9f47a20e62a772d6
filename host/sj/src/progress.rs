//! How far a long run is, and what it waits for: on a terminal, and only after a second.

use crate::failure::{Failure, shown};
use std::fs::{File, TryLockError};
use std::io::{IsTerminal, Write, stderr, stdout};
use std::path::Path;
use std::thread::sleep;
use std::time::{Duration, Instant};

const PATIENCE: Duration = Duration::from_secs(1);
const BETWEEN: Duration = Duration::from_millis(100);

/// A count of steps, told on standard error.
pub struct Progress {
    done: usize,
    all: usize,
    terminal: bool,
    /// Whether a line on standard output would stand beside the count.
    shared: bool,
    start: Instant,
    told: Option<Instant>,
    shown: bool,
}

impl Progress {
    /// So many steps are to come.
    pub fn new(all: usize) -> Progress {
        let (terminal, start) = (stderr().is_terminal(), Instant::now());
        Progress { done: 0, all, terminal, shared: stdout().is_terminal(), start, told: None, shown: false }
    }

    /// One step is done.
    pub fn step(&mut self) {
        self.done += 1;
        let recent = self.told.is_some_and(|told| told.elapsed() < BETWEEN);
        if self.terminal && self.start.elapsed() > PATIENCE && !recent {
            let _ = write!(stderr(), "\r{} of {}", self.done, self.all); // it is no part of the work
            self.told = Some(Instant::now());
            self.shown = true;
        }
    }

    /// Makes room for a line on standard output; elsewhere than on the terminal it needs none.
    pub fn before_line(&mut self) {
        if self.shared {
            self.clear();
        }
    }

    /// Clears the count before something else is told on standard error.
    pub fn clear(&mut self) {
        if self.shown {
            self.shown = false;
            let _ = write!(stderr(), "\r\x1b[K"); // nothing is lost if it stays
        }
    }
}

impl Drop for Progress {
    fn drop(&mut self) {
        self.clear();
    }
}

/// A wait for another run that changes the same image.
pub struct Wait<'a> {
    path: &'a Path,
    /// How long; None: as long as it takes.
    timeout: Option<Duration>,
    terminal: bool,
    start: Instant,
    /// The seconds that the line tells.
    told: Option<u64>,
}

impl Wait<'_> {
    /// For an image; the time begins now.
    pub fn new(path: &Path, timeout: Option<Duration>) -> Wait<'_> {
        Wait { path, timeout, terminal: stderr().is_terminal(), start: Instant::now(), told: None }
    }

    /// Locks a file. Where nothing is to be told and no time passes, Linux wakes the run when its turn comes.
    pub fn lock(&mut self, file: &File) -> Result<(), Failure> {
        let failed = |error| Failure::file(self.path, error);
        if !self.terminal && self.timeout.is_none() {
            return file.lock().map_err(failed);
        }
        loop {
            match file.try_lock() {
                Ok(()) => return Ok(()),
                Err(TryLockError::Error(error)) => return Err(failed(error)),
                Err(TryLockError::WouldBlock) => self.pause()?,
            }
        }
    }

    /// Waits a little, unless the time is over.
    fn pause(&mut self) -> Result<(), Failure> {
        let waited = self.start.elapsed();
        let left = self.timeout.map_or(BETWEEN, |timeout| timeout.saturating_sub(waited));
        if left.is_zero() {
            self.clear();
            return Err(self.given_up());
        }
        if self.terminal && waited >= PATIENCE && self.told != Some(waited.as_secs()) {
            self.told = Some(waited.as_secs());
            let line = format!("\rwaiting for another run on {}, {} s", brief(self.path), waited.as_secs());
            let _ = stderr().write_all(line.as_bytes()); // it is no part of the work
        }
        sleep(left.min(BETWEEN / 10));
        Ok(())
    }

    fn given_up(&self) -> Failure {
        let after = match self.timeout.unwrap_or_default().as_secs_f64() {
            0.0 => "at once".to_string(),
            1.0 => "after 1 second".to_string(),
            seconds => format!("after {seconds} seconds"),
        };
        Failure::blocked(format!("another run holds {}; gave up {after}", shown(self.path)))
    }

    fn clear(&mut self) {
        if self.told.take().is_some() {
            let _ = write!(stderr(), "\r\x1b[K"); // nothing is lost if it stays
        }
    }
}

impl Drop for Wait<'_> {
    fn drop(&mut self) {
        self.clear();
    }
}

/// A path that leaves room in a line, so that the line can be written over: its end, if it is long.
fn brief(path: &Path) -> String {
    let text = shown(path);
    let over = text.chars().count().saturating_sub(40);
    if over == 0 { text } else { format!("...{}", text.chars().skip(over + 3).collect::<String>()) }
}

#[cfg(test)]
mod tests {
    use super::*;

    #[test]
    fn a_long_path_is_told_by_its_end() {
        assert_eq!(brief(Path::new("a.img")), "a.img");
        let long = format!("{}/a.img", "x".repeat(100));
        assert_eq!(brief(Path::new(&long)), format!("...{}/a.img", "x".repeat(31)));
    }
}
