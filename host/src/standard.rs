//! Standard input, output and error. Where one is closed, Rust's runtime opens
//! /dev/null in its place before `main`, and an answer would be lost without a
//! word: so that is looked up before.

use std::fs::File;
use std::io::{self, IsTerminal, Write};
use std::os::fd::{AsFd, BorrowedFd};
use std::sync::atomic::{AtomicBool, Ordering};

static INPUT_CLOSED: AtomicBool = AtomicBool::new(false);
static OUTPUT_CLOSED: AtomicBool = AtomicBool::new(false);

/// Run by the system's loader, before Rust's runtime.
// SAFETY: the section holds addresses of functions of C's kind, each of which is called once;
// this one needs nothing of Rust's runtime.
#[used]
#[unsafe(link_section = ".init_array")]
static NOTE: extern "C" fn() = note;

extern "C" fn note() {
    // SAFETY: takes no memory, and any descriptor, open or not.
    let is_closed = |fd| unsafe { libc::fcntl(fd, libc::F_GETFD) } == -1;
    INPUT_CLOSED.store(is_closed(libc::STDIN_FILENO), Ordering::Relaxed);
    OUTPUT_CLOSED.store(is_closed(libc::STDOUT_FILENO), Ordering::Relaxed);
}

pub fn input() -> io::Result<File> {
    open(&INPUT_CLOSED, "it is closed", io::stdin().as_fd())
}

pub fn output() -> io::Result<File> {
    open(
        &OUTPUT_CLOSED,
        "standard output is closed",
        io::stdout().as_fd(),
    )
}

fn open(closed: &AtomicBool, why: &str, fd: BorrowedFd<'_>) -> io::Result<File> {
    match closed.load(Ordering::Relaxed) {
        true => Err(io::Error::other(why)),
        false => Ok(fd.try_clone_to_owned()?.into()),
    }
}

/// A remark for a person, where standard error is a terminal.
pub fn remark(sentence: &str) {
    if io::stderr().is_terminal() {
        say(&format!("lohenarr: {sentence}"));
    }
}

/// A line on standard error, if anyone listens.
pub fn say(line: &str) {
    let _ = writeln!(io::stderr(), "{line}");
}
