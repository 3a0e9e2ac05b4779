//! Area files mapped into memory, as a program has them that keeps a store on disk.
//!
//! What a call stores in a mapped file is there for every other process at once, and stays there however
//! the process ends. When it is on disk is for the system to choose, in an order of its own, but for
//! [`Area::sync`].

use std::fs::{File, OpenOptions};
use std::io;
use std::os::raw::{c_int, c_long, c_void};
use std::os::unix::io::AsRawFd;
use std::path::Path;
use std::ptr;

extern "C" {
    fn mmap(
        addr: *mut c_void,
        length: usize,
        prot: c_int,
        flags: c_int,
        fd: c_int,
        offset: c_long,
    ) -> *mut c_void;
    fn msync(addr: *mut c_void, length: usize, flags: c_int) -> c_int;
    fn flock(fd: c_int, operation: c_int) -> c_int;
    fn munmap(addr: *mut c_void, length: usize) -> c_int;
    fn raise(signal: c_int) -> c_int;
    fn isatty(fd: c_int) -> c_int;
    fn signal(signal: c_int, handler: usize) -> usize;
}

// The values of Linux on x86-64 and aarch64.
const PROT_READ: c_int = 1;
const PROT_WRITE: c_int = 2;
const MAP_SHARED: c_int = 0x01;
const MS_SYNC: c_int = 4;
const LOCK_SH: c_int = 1;
const LOCK_EX: c_int = 2;
const LOCK_NB: c_int = 4;
const LOCK_UN: c_int = 8;

const SIGPIPE: c_int = 13;
const SIG_DFL: usize = 0;

/// The signal that no process can catch or put off.
pub const SIGKILL: c_int = 9;

/// A lock on a file or a folder, taken without waiting. It goes with the process, however it ends.
pub struct Lock {
    file: File,
}

impl Lock {
    /// Beside others of its sort, but beside no lock that is held alone.
    pub fn shared(path: &Path) -> io::Result<Lock> {
        Lock::of(File::open(path)?, LOCK_SH)
    }

    /// Beside no other lock.
    pub fn alone(path: &Path) -> io::Result<Lock> {
        Lock::of(File::open(path)?, LOCK_EX)
    }

    fn of(file: File, how: c_int) -> io::Result<Lock> {
        // SAFETY: a handle that is open.
        if unsafe { flock(file.as_raw_fd(), how | LOCK_NB) } == 0 {
            return Ok(Lock { file });
        }
        let error = io::Error::last_os_error();
        if error.kind() == io::ErrorKind::WouldBlock {
            return Err(io::Error::new(error.kind(), "somebody else has it locked"));
        }
        Err(error)
    }
}

impl Drop for Lock {
    fn drop(&mut self) {
        // By hand: a child that is just being started may have the handle too.
        // SAFETY: a handle that is open.
        unsafe { flock(self.file.as_raw_fd(), LOCK_UN) };
    }
}

/// The bytes of a file, mapped as a whole; or none.
struct Mapping {
    start: *mut u8,
    length: usize,
}

impl Mapping {
    fn of(file: &File, access: c_int) -> io::Result<Mapping> {
        let length = usize::try_from(file.metadata()?.len())
            .map_err(|_| io::Error::new(io::ErrorKind::Other, "more bytes than can be mapped"))?;
        if length == 0 {
            return Ok(Mapping::none()); // nothing cannot be mapped
        }
        // SAFETY: a new mapping, of bytes that the file has, at an address of the system's choice.
        let start =
            unsafe { mmap(ptr::null_mut(), length, access, MAP_SHARED, file.as_raw_fd(), 0) };
        if start as isize == -1 {
            return Err(io::Error::last_os_error());
        }
        Ok(Mapping { start: start.cast(), length })
    }

    fn none() -> Mapping {
        Mapping { start: ptr::NonNull::dangling().as_ptr(), length: 0 }
    }

    fn bytes(&self) -> &[u8] {
        // SAFETY: mapped with this length, or no bytes at an aligned address; borrowed for the slice.
        unsafe { std::slice::from_raw_parts(self.start, self.length) }
    }
}

impl Drop for Mapping {
    fn drop(&mut self) {
        if self.length != 0 {
            // SAFETY: mapped with this length; no slice of it is alive.
            unsafe { munmap(self.start.cast(), self.length) };
        }
    }
}

/// One area in a file, mapped as a whole. As long as it stands the file is locked: there is no second area
/// and no view of it, here or in another process. Whoever does not ask for the lock must not write to the
/// file or cut it. An absent area has no file and no bytes.
pub struct Area {
    // Unmapped before the lock goes.
    mapping: Mapping,
    lock: Option<Lock>,
}

impl Area {
    /// A new file of so many zeros, which is one hole.
    pub fn create(path: &Path, length: usize) -> io::Result<Area> {
        let file = OpenOptions::new().read(true).write(true).create_new(true).open(path)?;
        let lock = Lock::of(file, LOCK_EX)?;
        lock.file.set_len(length as u64)?;
        Area::of(lock)
    }

    /// A file that is there, with all its bytes. It is refused while there is another area or a view of
    /// the file.
    pub fn open(path: &Path) -> io::Result<Area> {
        let file = OpenOptions::new().read(true).write(true).open(path)?;
        Area::of(Lock::of(file, LOCK_EX)?)
    }

    /// A file if it is there, else an absent area. A file that cannot be looked at is not absent.
    pub fn open_or_absent(path: &Path) -> io::Result<Area> {
        match Area::open(path) {
            Err(error) if error.kind() == io::ErrorKind::NotFound => Ok(Area::absent()),
            opened => opened,
        }
    }

    pub fn absent() -> Area {
        Area { mapping: Mapping::none(), lock: None }
    }

    fn of(lock: Lock) -> io::Result<Area> {
        let mapping = Mapping::of(&lock.file, PROT_READ | PROT_WRITE)?;
        Ok(Area { mapping, lock: Some(lock) })
    }

    /// Whether it has a file.
    pub fn is_there(&self) -> bool {
        self.lock.is_some()
    }

    pub fn bytes(&self) -> &[u8] {
        self.mapping.bytes()
    }

    pub fn bytes_mut(&mut self) -> &mut [u8] {
        // SAFETY: as in `bytes`, mapped to be written to, and nothing else borrows it.
        unsafe { std::slice::from_raw_parts_mut(self.mapping.start, self.mapping.length) }
    }

    /// Waits until all that was stored so far is on disk, as far as the system tells.
    pub fn sync(&self) -> io::Result<()> {
        if self.mapping.length == 0 {
            return Ok(());
        }
        // SAFETY: a mapping that stands, as a whole.
        match unsafe { msync(self.mapping.start.cast(), self.mapping.length, MS_SYNC) } {
            0 => Ok(()),
            _ => Err(io::Error::last_os_error()),
        }
    }
}

/// One area in a file, mapped to be read. As long as it stands there may be other views of the file, but
/// no [`Area`]. A file that may not be written to will do.
pub struct View {
    // Unmapped before the lock goes.
    mapping: Mapping,
    _lock: Lock,
}

impl View {
    /// A file that is there, with all its bytes. It is refused while there is an area of the file.
    pub fn open(path: &Path) -> io::Result<View> {
        let lock = Lock::shared(path)?;
        let mapping = Mapping::of(&lock.file, PROT_READ)?;
        Ok(View { mapping, _lock: lock })
    }

    pub fn bytes(&self) -> &[u8] {
        self.mapping.bytes()
    }
}

/// Whether what is written to the standard error output is seen on a terminal.
pub fn errors_are_on_a_terminal() -> bool {
    // SAFETY: any number may be asked about.
    unsafe { isatty(io::stderr().as_raw_fd()) == 1 }
}

/// From now on this process ends quietly where nobody reads on what it prints, as others do.
pub fn end_with_the_reader() {
    // SAFETY: the system's own handler takes the place of the runtime's.
    unsafe { signal(SIGPIPE, SIG_DFL) };
}

/// Ends this process on the spot, as a kill from elsewhere would: nothing is flushed, dropped or undone.
pub fn end_now() -> ! {
    // SAFETY: the signal goes to this process alone, and nothing of it runs afterwards.
    unsafe { raise(SIGKILL) };
    unreachable!("a process that survived SIGKILL")
}

#[cfg(test)]
mod tests {
    use super::*;
    use std::fs;

    #[test]
    fn what_is_stored_is_in_the_file() {
        let path = std::env::temp_dir().join(format!("mapped-{}", std::process::id()));
        let mut area = Area::create(&path, 10_000).expect("a new file");
        assert!(area.bytes().iter().all(|byte| *byte == 0));
        area.bytes_mut()[9_999] = 7;
        assert_eq!(fs::read(&path).expect("the file")[9_998..], [0, 7]);
        area.sync().expect("on disk");
        drop(area);
        assert!(Area::create(&path, 1).is_err());
        let again = Area::open_or_absent(&path).expect("the file");
        assert_eq!((again.bytes().len(), again.bytes()[9_999]), (10_000, 7));
        fs::remove_file(&path).expect("removed");
        assert_eq!(again.bytes()[9_999], 7);
        assert_eq!(Area::open_or_absent(&path).expect("no file").bytes(), []);
        assert!(Area::absent().sync().is_ok());
    }

    /// Two areas of one file would be two names for the same bytes, both of which may be written.
    #[test]
    fn a_file_has_one_area_at_a_time() {
        for length in [0, 10_000] {
            let name = format!("mapped-lock-{}-{length}", std::process::id());
            let path = std::env::temp_dir().join(name);
            let area = Area::create(&path, length).expect("a new file");
            for second in [Area::open(&path), Area::open_or_absent(&path)] {
                let kind = second.err().map(|error| error.kind());
                assert_eq!(kind, Some(io::ErrorKind::WouldBlock), "{length} bytes");
            }
            drop(area);
            let second = Area::open(&path).expect("nobody else has it");
            assert!(Area::open(&path).is_err());
            drop(second);
            fs::remove_file(&path).expect("removed");
        }
    }

    /// Many may look at a file, while nobody can write to it; and the other way round.
    #[test]
    fn a_view_is_beside_views_alone() {
        for length in [0, 10_000] {
            let name = format!("mapped-view-{}-{length}", std::process::id());
            let path = std::env::temp_dir().join(name);
            let area = Area::create(&path, length).expect("a new file");
            assert!(View::open(&path).is_err() && area.is_there());
            drop(area);
            let (one, other) = (View::open(&path), View::open(&path));
            assert_eq!(one.expect("a view").bytes().len(), length);
            assert_eq!(Area::open(&path).err().map(|e| e.kind()), Some(io::ErrorKind::WouldBlock));
            drop(other);
            assert!(Area::open(&path).is_ok());
            fs::remove_file(&path).expect("removed");
            assert_eq!(View::open(&path).err().map(|e| e.kind()), Some(io::ErrorKind::NotFound));
        }
    }

    #[test]
    fn a_folder_can_be_locked() {
        let path = std::env::temp_dir().join(format!("mapped-folder-{}", std::process::id()));
        fs::create_dir(&path).expect("a folder");
        let (one, other) = (Lock::shared(&path), Lock::shared(&path));
        assert!(one.is_ok() && Lock::alone(&path).is_err());
        drop((one, other));
        let alone = Lock::alone(&path).expect("nobody has it");
        assert!(Lock::shared(&path).is_err() && Lock::alone(&path).is_err());
        drop(alone);
        assert!(Lock::shared(&path).is_ok());
        fs::remove_dir(&path).expect("removed");
    }

    /// What cannot be looked at is not taken for absent.
    #[test]
    fn only_a_missing_file_is_absent() {
        let path = std::env::temp_dir().join(format!("mapped-file-{}", std::process::id()));
        fs::write(&path, [1]).expect("a file");
        assert!(Area::open_or_absent(&path.join("below")).is_err());
        fs::remove_file(&path).expect("removed");
        assert!(Area::open_or_absent(&path).is_ok());
    }
}
