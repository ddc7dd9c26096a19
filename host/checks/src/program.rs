//! The program `plotreport`, run on what a test hands it. It is made by
//! `tools/build` when it is missing or older than the sources.

use std::fs::{self, File};
use std::io::{self, ErrorKind, Write};
use std::path::{Path, PathBuf};
use std::process::{Child, ChildStdin, Command, Output, Stdio};
use std::sync::OnceLock;
use std::sync::atomic::{AtomicUsize, Ordering};
use std::thread;
use std::time::{Duration, SystemTime};

/// How the program gets its input.
#[derive(Clone, Copy, Debug)]
pub enum Feed {
    /// From a file.
    File,
    /// From a pipe, in one write.
    Pipe,
    /// From a pipe, in writes of so many bytes with a pause after each.
    Pieces { bytes: usize, pause: Duration },
}

fn changed(path: &Path) -> Option<SystemTime> {
    path.metadata().and_then(|data| data.modified()).ok()
}

/// The latest change of a file, or of anything below a folder but `out`, in
/// which `rt` keeps its work.
fn latest(path: &Path) -> Option<SystemTime> {
    if path.is_file() {
        return changed(path);
    }
    let inside = path.read_dir().into_iter().flatten().flatten();
    let sources = inside.filter(|entry| entry.file_name() != "out");
    sources.filter_map(|entry| latest(&entry.path())).max()
}

fn is_current(program: &Path, root: &Path) -> bool {
    let sources = ["crates", "crates.txt"].map(|name| latest(&root.join(name)));
    changed(program).is_some_and(|made| sources.into_iter().flatten().all(|it| it <= made))
}

/// Where the program is, once it is made; nothing where it cannot be.
fn made() -> Option<PathBuf> {
    let root = PathBuf::from(env!("CARGO_MANIFEST_DIR")).join("../..");
    let program = root.join("target/bin/plotreport");
    if is_current(&program, &root) {
        return Some(program);
    }
    let status = Command::new(root.join("tools/build"))
        .arg("plotreport")
        .status();
    let is_made = status.is_ok_and(|status| status.success());
    is_made.then_some(program)
}

fn start(input: Stdio, output: Stdio) -> io::Result<Child> {
    const FAULT: &str = "`tools/build plotreport` failed in the repository's root";
    static PROGRAM: OnceLock<Option<PathBuf>> = OnceLock::new();
    let program = PROGRAM.get_or_init(made);
    let program = program.as_ref().ok_or_else(|| io::Error::other(FAULT))?;
    Command::new(program)
        .stdin(input)
        .stdout(output)
        .stderr(Stdio::piped())
        .spawn()
}

/// Writes the input piece by piece. The program may end before it has read
/// all of it, which is no fault.
fn write_all(mut pipe: ChildStdin, input: &[u8], bytes: usize, pause: Duration) -> io::Result<()> {
    for piece in input.chunks(bytes.max(1)) {
        match pipe.write_all(piece).and_then(|()| pipe.flush()) {
            Err(fault) if fault.kind() == ErrorKind::BrokenPipe => return Ok(()),
            written => written?,
        }
        thread::sleep(pause);
    }
    Ok(())
}

fn from_a_pipe(input: &[u8], bytes: usize, pause: Duration) -> io::Result<Output> {
    let mut child = start(Stdio::piped(), Stdio::piped())?;
    let pipe = child.stdin.take();
    let pipe = pipe.ok_or_else(|| io::Error::other("no pipe to the program"))?;
    thread::scope(|scope| {
        let writer = scope.spawn(|| write_all(pipe, input, bytes, pause));
        let output = child.wait_with_output();
        let written = writer.join();
        written.unwrap_or_else(|_| Err(io::Error::other("the writer panicked")))?;
        output
    })
}

/// All that the program writes, between what it reads and writes here.
///
/// # Errors
/// Where the program cannot be made or run.
pub fn run_between(input: Stdio, output: Stdio) -> io::Result<Output> {
    start(input, output)?.wait_with_output()
}

fn from_a_file(input: &[u8]) -> io::Result<Output> {
    static FILES: AtomicUsize = AtomicUsize::new(0);
    let number = FILES.fetch_add(1, Ordering::Relaxed);
    let name = format!("plotreport-{}-{number}.sheet", std::process::id());
    let path = std::env::temp_dir().join(name);
    fs::write(&path, input)?;
    let output = File::open(&path).and_then(|file| run_between(file.into(), Stdio::piped()));
    fs::remove_file(&path)?;
    output
}

/// All that the program writes, given this input.
///
/// # Errors
/// Where the program cannot be made or run.
pub fn run(input: &[u8], feed: Feed) -> io::Result<Output> {
    match feed {
        Feed::File => from_a_file(input),
        Feed::Pipe => from_a_pipe(input, input.len(), Duration::ZERO),
        Feed::Pieces { bytes, pause } => from_a_pipe(input, bytes, pause),
    }
}
