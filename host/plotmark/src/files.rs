//! What is read and written, and what is told where that fails.

use std::env;
use std::ffi::OsStr;
use std::fs::File;
use std::io::{self, IsTerminal, Read, Write};

use crate::args::STANDARD;
use crate::closed;
use crate::text::Colours;

/// No sheet has as many bytes.
const LONGEST: u64 = 1 << 24;

/// Why something was not done.
#[derive(Clone, Debug, Eq, PartialEq)]
pub enum Fault {
    /// A sheet was refused.
    Refused(String),
    /// Not read, not written, or wrong usage.
    Failed(String),
}

impl Fault {
    /// Tells it on standard error; the exit status.
    pub fn tell(&self) -> u8 {
        let (status, text) = match self {
            Self::Refused(text) => (1, text),
            Self::Failed(text) => (2, text),
        };
        // Where standard error cannot be written there is nowhere to tell it.
        let _ = writeln!(io::stderr(), "{text}");
        status
    }
}

/// What a sheet is called.
#[must_use]
pub fn called(sheet: &OsStr) -> String {
    if sheet == STANDARD {
        "standard input".to_string()
    } else {
        sheet.to_string_lossy().into_owned()
    }
}

/// The bytes of a sheet.
///
/// # Errors
/// Where it cannot be read.
pub fn read(sheet: &OsStr) -> Result<Vec<u8>, Fault> {
    let bytes = if sheet == STANDARD {
        standard()
    } else {
        File::open(sheet).and_then(whole)
    };
    bytes.map_err(|fault| Fault::Failed(format!("{}: not read: {fault}", called(sheet))))
}

fn standard() -> io::Result<Vec<u8>> {
    if closed::input() {
        return Err(io::Error::other("it is closed"));
    }
    let input = io::stdin();
    if input.is_terminal() {
        let _ = writeln!(
            io::stderr(),
            "plotmark: reads a sheet from here (see plotmark --help)"
        );
    }
    whole(input.lock())
}

fn whole(from: impl Read) -> io::Result<Vec<u8>> {
    let mut bytes = Vec::new();
    from.take(LONGEST + 1).read_to_end(&mut bytes)?;
    if bytes.len() as u64 > LONGEST {
        return Err(io::Error::other("too long to be a sheet"));
    }
    Ok(bytes)
}

/// Writes to standard output, all of it.
///
/// # Errors
/// Where it cannot be written.
pub fn put(bytes: &[u8]) -> Result<(), Fault> {
    let mut out = io::stdout().lock();
    let written = if bytes.is_empty() {
        Ok(())
    } else if closed::output() {
        Err(io::Error::other("it is closed"))
    } else {
        out.write_all(bytes).and_then(|()| out.flush())
    };
    written.map_err(|fault| Fault::Failed(format!("standard output: not written: {fault}")))
}

/// Whether standard output is a terminal that takes colours.
#[must_use]
pub fn colours() -> Colours {
    let is_off = env::var_os("NO_COLOR").is_some_and(|it| !it.is_empty());
    if io::stdout().is_terminal() && !is_off {
        Colours::On
    } else {
        Colours::Off
    }
}

/// How many of several sheets are done, told on a terminal alone.
#[derive(Debug)]
pub struct Progress {
    of: Option<usize>,
}

impl Progress {
    /// Of so many.
    #[must_use]
    pub fn of(count: usize) -> Self {
        let shows = count > 1 && io::stderr().is_terminal();
        Self {
            of: shows.then_some(count),
        }
    }

    /// Tells the place that is at work.
    pub fn show(&self, place: usize) {
        if let Some(of) = self.of {
            let _ = write!(io::stderr(), "\r\x1b[K{place} of {of}");
        }
    }

    /// Makes room for another line.
    pub fn hide(&self) {
        if self.of.is_some() {
            let _ = write!(io::stderr(), "\r\x1b[K");
        }
    }
}
