//! How far a command is, on standard error where that is a terminal and the
//! work takes longer than half a second.

use std::io::{self, IsTerminal};
use std::thread;
use std::time::Duration;

use indicatif::{ProgressBar, ProgressDrawTarget, ProgressStyle};

/// Work that is done sooner shows nothing.
const SHORT: Duration = Duration::from_millis(500);

/// How often what is shown is drawn anew.
const TICK: Duration = Duration::from_millis(100);

/// Shows how much of a piece of work is done, for as long as it is held.
pub struct Progress(Option<ProgressBar>);

impl Progress {
    /// Work with so many parts, or without any that it could count.
    pub fn new(message: &'static str, parts: Option<u64>) -> Progress {
        if !io::stderr().is_terminal() {
            return Progress(None);
        }
        let hidden = ProgressDrawTarget::hidden();
        let template = match parts {
            Some(_) => "{msg} {percent}% {wide_bar}",
            None => "{msg} {spinner}",
        };
        let style = ProgressStyle::with_template(template).expect("a template");
        let bar = ProgressBar::with_draw_target(parts, hidden).with_style(style);
        bar.set_message(message);
        let later = bar.downgrade();
        thread::spawn(move || {
            thread::sleep(SHORT);
            if let Some(bar) = later.upgrade() {
                bar.set_draw_target(ProgressDrawTarget::stderr());
                bar.enable_steady_tick(TICK);
            }
        });
        Progress(Some(bar))
    }

    /// For work whose answer goes to standard output piece by piece: nothing is
    /// shown where that is a terminal too.
    pub fn beside_output(message: &'static str, parts: u64) -> Progress {
        match io::stdout().is_terminal() {
            true => Progress(None),
            false => Progress::new(message, Some(parts)),
        }
    }

    /// So many more parts are done.
    pub fn add(&self, parts: u64) {
        if let Progress(Some(bar)) = self {
            bar.inc(parts);
        }
    }
}

impl Drop for Progress {
    fn drop(&mut self) {
        if let Progress(Some(bar)) = self {
            bar.finish_and_clear();
        }
    }
}
