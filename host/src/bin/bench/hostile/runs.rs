//! Runs of the program, timed from its begin to its end. What it prints goes to
//! a null device.

use std::ffi::OsStr;
use std::path::Path;
use std::process::{Command, Stdio};
use std::thread::sleep;
use std::time::{Duration, Instant};

/// A run that takes longer is cut off.
pub const LIMIT: Duration = Duration::from_secs(20);

/// How long a run is left to itself before it is asked for again: a part of the
/// time that it has taken.
const PART: u32 = 200;
const SHORTEST: Duration = Duration::from_micros(50);

/// The time of a run that ends with an answer or a refusal; nothing where it was
/// cut off.
pub fn run(program: &Path, words: &[&OsStr]) -> Result<Option<Duration>, String> {
    let failed = |why: &str| format!("{} {words:?}: {why}", program.display());
    let start = Instant::now();
    let mut command = Command::new(program);
    command.args(words).stdin(Stdio::null());
    command.stdout(Stdio::null()).stderr(Stdio::null());
    let child = command.spawn();
    let mut child = child.map_err(|error| failed(&error.to_string()))?;
    loop {
        let ended = child
            .try_wait()
            .map_err(|error| failed(&error.to_string()))?;
        let time = start.elapsed();
        match ended.map(|status| status.code()) {
            Some(Some(0 | 1)) => return Ok(Some(time)),
            Some(_) => return Err(failed("it failed")),
            None if time > LIMIT => {
                let _ = child.kill();
                let _ = child.wait();
                return Ok(None);
            }
            None => sleep((time / PART).max(SHORTEST)),
        }
    }
}
