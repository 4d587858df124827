//! What signals do. A byte of a mapped dump that cannot be read is a sentence
//! and status 2; what is not whole yet goes with the process; a closed
//! pipe ends it quietly.
//!
//! Handlers do nothing but what POSIX allows them: they read atomics, write to
//! standard error, remove a file or a folder and end.

use std::ffi::{c_char, c_int, c_void, CStr, CString, OsStr};
use std::os::unix::ffi::OsStrExt;
use std::path::Path;
use std::ptr;
use std::sync::atomic::{AtomicBool, AtomicPtr, Ordering::SeqCst};

use crate::folder;

/// Sets what signals do, for the whole process.
pub fn set() {
    // SAFETY: each handler is of the kind that its flags name, and does only what a handler may.
    unsafe {
        libc::signal(libc::SIGPIPE, libc::SIG_DFL);
        // a file that may not grow on is an error of writing
        libc::signal(libc::SIGXFSZ, libc::SIG_IGN);
        handle(libc::SIGBUS, on_bus as *const () as usize, libc::SA_SIGINFO);
        for signal in [libc::SIGHUP, libc::SIGINT, libc::SIGTERM] {
            if libc::signal(signal, libc::SIG_DFL) == libc::SIG_IGN {
                libc::signal(signal, libc::SIG_IGN);
            } else {
                handle(signal, on_end as *const () as usize, 0);
            }
        }
    }
}

/// # Safety
///
/// The handler is the address of a function: with `SA_SIGINFO` one of three parameters, as
/// `sigaction` has it, and else one of the signal alone. It does only what POSIX allows a
/// handler to do.
unsafe fn handle(signal: c_int, handler: usize, flags: c_int) {
    // SAFETY: zeros are a value of the struct, which outlives the call: no flags, no signals
    // masked. The handler is as the caller owes it.
    unsafe {
        let mut action: libc::sigaction = std::mem::zeroed();
        action.sa_sigaction = handler;
        action.sa_flags = flags;
        libc::sigaction(signal, &action, ptr::null_mut());
    }
}

/// A mapped dump that a lost byte may belong to, and the begin of the sentence.
struct Place {
    start: usize,
    length: usize,
    sentence: Vec<u8>,
}

/// The dumps that are watched; no command has more at a time.
static WATCHED: [AtomicPtr<Place>; 4] = [const { AtomicPtr::new(ptr::null_mut()) }; 4];

/// Whether a lost byte is being told of: two threads may meet one.
static SAID: AtomicBool = AtomicBool::new(false);

/// A map is watched for as long as this is held. Its place is never freed, since a handler
/// may look at it in another thread just then; a command has a few.
pub struct Watched(*mut Place);

impl Watched {
    pub fn new(name: &OsStr, map: &[u8]) -> Watched {
        let place = Box::into_raw(Box::new(Place {
            start: map.as_ptr() as usize,
            length: map.len(),
            sentence: [b"lohenarr: cannot read ", name.as_bytes(), b": byte "].concat(),
        }));
        put(ptr::null_mut(), place);
        Watched(place)
    }
}

impl Drop for Watched {
    fn drop(&mut self) {
        put(self.0, ptr::null_mut());
    }
}

/// Puts a place where another one, or none, was first.
fn put(before: *mut Place, after: *mut Place) {
    let put = |slot: &AtomicPtr<Place>| slot.compare_exchange(before, after, SeqCst, SeqCst);
    let _ = WATCHED.iter().any(|slot| put(slot).is_ok());
}

extern "C" fn on_bus(signal: c_int, info: *mut libc::siginfo_t, _: *mut c_void) {
    // SAFETY: with `SA_SIGINFO` the system hands over what it knows of the signal.
    let at = unsafe { (*info).si_addr() } as usize;
    for slot in &WATCHED {
        // SAFETY: null, or a place from `Watched::new`, which is whole and never freed.
        let place = unsafe { slot.load(SeqCst).as_ref() };
        let offset = place.map(|place| (place, at.wrapping_sub(place.start)));
        if let Some((place, offset)) = offset.filter(|(place, offset)| *offset < place.length) {
            // another thread that lost a byte says so, and ends this one too
            while SAID.swap(true, SeqCst) {
                // SAFETY: takes no memory.
                unsafe { libc::pause() };
            }
            say(&place.sentence);
            say_number(offset);
            say(b" is not there: the file was shortened meanwhile, or its medium fails\n");
            remove_unfinished();
            // SAFETY: takes no memory; ends the process at once, without its handlers of exit.
            unsafe { libc::_exit(2) };
        }
    }
    // not a dump's: the access is tried again, and ends the process
    // SAFETY: sets the signal's own default.
    unsafe { libc::signal(signal, libc::SIG_DFL) };
}

fn say(bytes: &[u8]) {
    // SAFETY: so many bytes are there, and outlive the call.
    unsafe { libc::write(libc::STDERR_FILENO, bytes.as_ptr().cast(), bytes.len()) };
}

fn say_number(mut number: usize) {
    let mut digits = [0; 20];
    let mut first = digits.len();
    loop {
        first -= 1;
        digits[first] = b'0' + (number % 10) as u8;
        number /= 10;
        if number == 0 {
            return say(&digits[first..]);
        }
    }
}

/// The name of a file or a folder that goes with the process, unless it is kept.
static UNFINISHED: AtomicPtr<c_char> = AtomicPtr::new(ptr::null_mut());

/// While this is held, a signal that ends the process removes the file or the folder
/// first. The name is never freed, since a handler may read it in another thread just
/// then; a command has one.
pub struct Unfinished(*mut c_char);

impl Unfinished {
    /// Of one at a time; nothing where its name is none for the system.
    pub fn new(path: &Path) -> Option<Unfinished> {
        let name = CString::new(path.as_os_str().as_bytes()).ok()?.into_raw();
        UNFINISHED.store(name, SeqCst);
        Some(Unfinished(name))
    }
}

impl Drop for Unfinished {
    fn drop(&mut self) {
        let _ = UNFINISHED.compare_exchange(self.0, ptr::null_mut(), SeqCst, SeqCst);
    }
}

fn remove_unfinished() {
    let name = UNFINISHED.load(SeqCst);
    if !name.is_null() {
        // SAFETY: a name from `Unfinished::new`, which ends with a zero byte and is never freed.
        let name = unsafe { CStr::from_ptr(name) };
        // SAFETY: the name ends with a zero byte and outlives the call.
        if unsafe { libc::unlink(name.as_ptr()) } == -1 {
            folder::remove(name);
        }
    }
}

/// The process ends by the signal, as it would without this.
extern "C" fn on_end(signal: c_int) {
    remove_unfinished();
    // SAFETY: sets the signal's own default, and sends the signal once more.
    unsafe {
        libc::signal(signal, libc::SIG_DFL);
        libc::raise(signal);
    }
}
