//! The C library's calls that Rust's own library has not (in the version that Debian 12 packages), and all unsafe code of
//! this crate. The numbers are Linux's.

use std::ffi::c_void;
use std::fs::{self, File};
use std::io;
use std::mem::size_of;
use std::os::unix::fs::MetadataExt;
use std::os::unix::io::AsRawFd;
use std::ptr;
use std::slice;
use std::sync::atomic::{AtomicPtr, AtomicUsize, Ordering};

extern "C" {
    fn mmap(address: *mut c_void, length: usize, protection: i32, flags: i32, file: i32, offset: i64) -> *mut c_void;
    fn munmap(address: *mut c_void, length: usize) -> i32;
    fn msync(address: *mut c_void, length: usize, flags: i32) -> i32;
    fn flock(file: i32, operation: i32) -> i32;
    fn posix_fallocate(file: i32, offset: i64, length: i64) -> i32;
    fn getrandom(bytes: *mut c_void, length: usize, flags: u32) -> isize;
    fn statx(folder: i32, path: *const u8, flags: i32, mask: u32, answer: *mut u64) -> i32;
    fn signal(number: i32, handler: usize) -> usize;
    fn write(file: i32, bytes: *const u8, length: usize) -> isize;
    fn _exit(status: i32) -> !;
}

const PROT_READ: i32 = 1;
const PROT_WRITE: i32 = 2;
const MAP_SHARED: i32 = 1;
const MS_SYNC: i32 = 4;
const LOCK_SH: i32 = 1;
const LOCK_EX: i32 = 2;
const LOCK_NB: i32 = 4;
const AT_EMPTY_PATH: i32 = 0x1000;
const STATX_MNT_ID: u32 = 0x1000;
const STATX_MNT_ID_UNIQUE: u32 = 0x4000;
const SIGBUS: i32 = 7;
const STDERR: i32 = 2;

fn done(answer: i32) -> io::Result<()> {
    match answer {
        0 => Ok(()),
        _ => Err(io::Error::last_os_error()),
    }
}

/// Numbers that a job's lists are made of: every pattern of their bytes is one.
pub trait Element: Copy + 'static + Sealed {}

/// Keeps other types from being elements.
pub trait Sealed {}

macro_rules! elements {
    ($($number:ty)+) => { $(impl Sealed for $number {} impl Element for $number {})+ };
}

elements!(u8 u32 u64 i64);

/// A list's bytes, as they stand in memory.
pub fn bytes<T: Element>(list: &[T]) -> &[u8] {
    unsafe { slice::from_raw_parts(list.as_ptr().cast(), std::mem::size_of_val(list)) }
}

/// A file mapped into memory, shared with whoever else maps it. It is sound as long as nobody shortens the file (then a
/// use of it raises SIGBUS, see [`on_storage_failure`]) and, where it is written, nobody else writes it: the job's lock sees
/// to that among workers.
pub struct Mapping {
    address: *mut c_void,
    bytes: usize,
}

// The memory belongs to this value alone, whichever thread has it.
unsafe impl Send for Mapping {}

impl Mapping {
    /// Maps the first `bytes` bytes, at least one. Of the file's last page those past its end may be among them.
    pub fn new(file: &File, bytes: usize, writable: bool) -> io::Result<Self> {
        let protection = if writable { PROT_READ | PROT_WRITE } else { PROT_READ };
        let address = unsafe { mmap(ptr::null_mut(), bytes, protection, MAP_SHARED, file.as_raw_fd(), 0) };
        match address as isize {
            -1 => Err(io::Error::last_os_error()),
            _ => Ok(Mapping { address, bytes }),
        }
    }

    /// A mapping begins at a page, and so at a number of any type.
    pub fn list<T: Element>(&self) -> &[T] {
        unsafe { slice::from_raw_parts(self.address.cast(), self.bytes / size_of::<T>()) }
    }

    /// For a mapping that was made writable; a store into another is a fault of the program.
    pub fn list_mut<T: Element>(&mut self) -> &mut [T] {
        unsafe { slice::from_raw_parts_mut(self.address.cast(), self.bytes / size_of::<T>()) }
    }

    /// Waits until the storage has all that was written to the file, by this process or by one that is gone.
    pub fn sync(&self) -> io::Result<()> {
        done(unsafe { msync(self.address, self.bytes, MS_SYNC) })
    }
}

impl Drop for Mapping {
    fn drop(&mut self) {
        unsafe { munmap(self.address, self.bytes) };
    }
}

/// Tries to lock a file for all others, or together with others who only ask; false where someone else holds it. The system
/// takes a lock back when the last process that has the file open is gone.
pub fn try_lock(file: &File, shared: bool) -> io::Result<bool> {
    let kind = if shared { LOCK_SH } else { LOCK_EX };
    match done(unsafe { flock(file.as_raw_fd(), kind | LOCK_NB) }) {
        Err(error) if error.kind() == io::ErrorKind::WouldBlock => Ok(false),
        tried => tried.map(|()| true),
    }
}

/// Waits for the lock.
pub fn lock(file: &File) -> io::Result<()> {
    loop {
        match done(unsafe { flock(file.as_raw_fd(), LOCK_EX) }) {
            Err(error) if error.kind() == io::ErrorKind::Interrupted => (),
            locked => return locked,
        }
    }
}

/// Has the storage keep room for the file's first `bytes` bytes. Where the file system cannot, the C library reads and writes a
/// byte of each block, so that the file must be open for both.
pub fn allocate(file: &File, bytes: u64) -> io::Result<()> {
    match bytes {
        0 => Ok(()),
        _ => match unsafe { posix_fallocate(file.as_raw_fd(), 0, bytes as i64) } {
            0 => Ok(()),
            error => Err(io::Error::from_raw_os_error(error)),
        },
    }
}

/// 64 random bits of the kernel's. It is waited for until it has gathered enough of them after its start, and that a signal may
/// break off; so few are never given in part.
pub fn random() -> io::Result<u64> {
    let mut bits = 0u64;
    loop {
        let given = unsafe { getrandom((&mut bits as *mut u64).cast(), size_of::<u64>(), 0) };
        match usize::try_from(given) {
            Ok(given) if given == size_of::<u64>() => return Ok(bits),
            Ok(_) => return Err(io::ErrorKind::UnexpectedEof.into()),
            Err(_) => match io::Error::last_os_error() {
                error if error.kind() == io::ErrorKind::Interrupted => (),
                error => return Err(error),
            },
        }
    }
}

/// The number of the mount that a file was opened on, if no other has it in this boot. Linux 6.8 and later never give a number
/// twice; earlier ones give it to the next mount, so that there it counts only on the device of `/`, which stays mounted.
pub fn mount(file: &File) -> Option<u64> {
    // The answer is a record of 256 bytes; the mask of what it has stands first, the mount's number at byte 144.
    let asked = |mask: u32| {
        let mut answer = [0; 32];
        let failed = unsafe { statx(file.as_raw_fd(), b"\0".as_ptr(), AT_EMPTY_PATH, mask, answer.as_mut_ptr()) };
        (failed == 0 && answer[0] as u32 & mask != 0).then(|| answer[18])
    };
    let stays = || Some(file.metadata().ok()?.dev() == fs::metadata("/").ok()?.dev());
    asked(STATX_MNT_ID_UNIQUE).or_else(|| stays().filter(|stays| *stays).and_then(|_| asked(STATX_MNT_ID)))
}

static LINE: AtomicPtr<u8> = AtomicPtr::new(ptr::null_mut());
static LENGTH: AtomicUsize = AtomicUsize::new(0);
static STATUS: AtomicUsize = AtomicUsize::new(0);

extern "C" fn storage_failed(_signal: i32) {
    unsafe {
        write(STDERR, LINE.load(Ordering::SeqCst), LENGTH.load(Ordering::SeqCst));
        _exit(STATUS.load(Ordering::SeqCst) as i32)
    }
}

/// From now on, a use of a mapped file that the storage cannot serve (SIGBUS: no room for a page, a page that cannot be read,
/// a file that was shortened) writes this line to standard error and ends the process with this status. What the job's
/// memory holds then is what a kill leaves.
pub fn on_storage_failure(line: &str, status: u8) {
    let line = Box::leak(format!("{line}\n").into_boxed_str().into_boxed_bytes());
    LENGTH.store(0, Ordering::SeqCst);
    LINE.store(line.as_mut_ptr(), Ordering::SeqCst);
    LENGTH.store(line.len(), Ordering::SeqCst);
    STATUS.store(status.into(), Ordering::SeqCst);
    unsafe { signal(SIGBUS, storage_failed as *const () as usize) };
}
