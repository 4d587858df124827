//! A second thread on a long mapped dump: mapping and unmapping the pages takes
//! the system as long as finding the layout takes, and two threads do it sooner.

use std::fs::File;
use std::os::fd::AsRawFd;
use std::thread::{self, Builder};

use memmap2::Mmap;

/// The fewest bytes for which a thread is begun.
const LONG: usize = 64 << 20;

/// The second half begins with such a part, whose pages the system has in a table
/// of its own.
const PART: usize = 2 << 20;

/// How many places of a file tell whether the system has it in memory.
const PLACES: usize = 32;

/// Does work on a map and gives its answer. Beside that a second thread does
/// other work, if the map is long and in memory: a disk would be read at two
/// places by turns.
pub fn beside<T, U: Send>(
    map: &Mmap,
    file: &File,
    work: impl FnOnce() -> T,
    other: impl FnOnce() -> U + Send,
) -> (T, Option<U>) {
    if map.len() < LONG || !is_in_memory(file, map.len()) || !has_two_cores() {
        return (work(), None);
    }
    thread::scope(|scope| {
        let second = Builder::new().spawn_scoped(scope, other);
        (work(), second.ok().and_then(|second| second.join().ok()))
    })
}

/// Unmaps the pages of a map, a half by each of two threads. Bytes that are read
/// later are mapped anew.
pub fn unmap(map: &Mmap) {
    let (first, second) = map.split_at(map.len() / 2 / PART * PART);
    let unmap = |half: &[u8]| {
        let at = half.as_ptr().cast_mut().cast();
        // SAFETY: a part of a read-only map of a file: its bytes are the file's before and after.
        unsafe { libc::madvise(at, half.len(), libc::MADV_DONTNEED) };
    };
    thread::scope(|scope| {
        // without a thread the rest goes with the map
        let _ = Builder::new().spawn_scoped(scope, || unmap(second));
        unmap(first);
    });
}

fn has_two_cores() -> bool {
    thread::available_parallelism().is_ok_and(|cores| cores.get() > 1)
}

/// Whether some places of a file can be read without waiting for a disk.
fn is_in_memory(file: &File, length: usize) -> bool {
    let mut places = (0..length).step_by(length / PLACES);
    places.all(|place| {
        let mut byte = 0_u8;
        let to = libc::iovec {
            iov_base: (&raw mut byte).cast(),
            iov_len: 1,
        };
        let (file, place) = (file.as_raw_fd(), place as libc::off_t);
        // SAFETY: one vector, of one byte, which outlives the call and is this closure's own.
        unsafe { libc::preadv2(file, &to, 1, place, libc::RWF_NOWAIT) == 1 }
    })
}

#[cfg(test)]
mod tests {
    use std::io::Write;
    use std::os::unix::fs::FileExt;
    use std::sync::mpsc;
    use std::time::Duration;

    use super::*;

    /// A mapped file of so many bytes, which the system has in memory.
    fn mapped(length: usize) -> (File, Mmap) {
        let mut file = tempfile::tempfile().unwrap();
        file.write_all(&vec![7; length]).unwrap();
        // SAFETY: the file has no name; nothing reads a byte of the map that a test cuts off.
        let map = unsafe { Mmap::map(&file).unwrap() };
        (file, map)
    }

    /// Whether the other work was done while the first waited for it.
    fn is_beside(file: &File, map: &Mmap) -> bool {
        let (send, receive) = mpsc::channel();
        let work = || receive.recv_timeout(Duration::from_secs(1)).is_ok();
        let (waited, other) = beside(map, file, work, || send.send(5).unwrap());
        assert_eq!(waited, other.is_some());
        waited
    }

    #[test]
    fn a_long_map_has_a_second_thread() {
        let (file, map) = mapped(LONG);
        assert_eq!(is_beside(&file, &map), has_two_cores());
    }

    #[test]
    fn a_short_map_has_none() {
        let (file, map) = mapped(LONG - 1);
        assert!(!is_beside(&file, &map));
    }

    /// What cannot be read at once is left to the first thread.
    #[test]
    fn a_map_of_bytes_that_are_not_in_memory_has_none() {
        let (file, map) = mapped(LONG);
        file.set_len(LONG as u64 * 3 / 4).unwrap();
        assert!(!is_beside(&file, &map));
    }

    /// By the system's own table of pages.
    #[test]
    fn both_halves_are_unmapped() {
        let (_file, map) = mapped(LONG + 1);
        let table = File::open("/proc/self/pagemap").unwrap();
        let is_mapped = |at: usize| {
            let page = (map.as_ptr() as usize + at) / 4096;
            let mut entry = [0; 8];
            table.read_exact_at(&mut entry, 8 * page as u64).unwrap();
            entry[7] & 0x80 > 0
        };
        let places = || (0..=LONG).step_by(4096);
        assert!(places().all(|at| map[at] == 7));
        assert!(places().all(is_mapped));
        unmap(&map);
        assert!(!places().any(is_mapped));
        assert!(places().all(|at| map[at] == 7));
    }
}
