//! A terminal that a command writes to.

use std::fs::File;
use std::io::Read;
use std::os::fd::FromRawFd;
use std::process::{Command, ExitStatus, Stdio};
use std::ptr;

/// A terminal's two sides: what is written to the second is read from the first.
fn terminal() -> (File, File) {
    let (mut ours, mut theirs) = (-1, -1);
    let (name, modes, size) = (ptr::null_mut(), ptr::null_mut(), ptr::null_mut());
    // SAFETY: both numbers outlive the call, and the rest may be null; each of the two new
    // descriptors gets one owner.
    unsafe {
        assert_eq!(libc::openpty(&mut ours, &mut theirs, name, modes, size), 0);
        (File::from_raw_fd(ours), File::from_raw_fd(theirs))
    }
}

/// What a command writes to a terminal, which is given to it as one of its outputs.
pub fn shown(
    mut command: Command,
    give: impl Fn(&mut Command, Stdio) -> &mut Command,
) -> (String, ExitStatus) {
    let (mut ours, theirs) = terminal();
    give(&mut command, theirs.into());
    let mut child = command.spawn().unwrap();
    // the terminal closes with the last descriptor of its other side
    drop(command);
    let mut shown = Vec::new();
    // Linux ends the reading of a closed terminal with an error
    let _ = ours.read_to_end(&mut shown);
    let status = child.wait().unwrap();
    (String::from_utf8(shown).unwrap(), status)
}
