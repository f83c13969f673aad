//! A process that ends between the two stores of `begin` has stored the position and not the number. It is another process, whose
//! mark lies across the end of a page and whose second page may only be read: the store of the number is its last instruction.
#![cfg(target_os = "linux")]

use std::ffi::c_void;
use std::fs::File;
use std::os::unix::io::AsRawFd;
use std::os::unix::process::ExitStatusExt;
use std::path::PathBuf;
use std::process::{Command, Stdio};
use std::{env, fs, ptr};
use tray::{begin, JobNumber};

extern "C" {
    fn mmap(address: *mut c_void, length: usize, protection: i32, flags: i32, file: i32, offset: i64) -> *mut c_void;
    fn mprotect(address: *mut c_void, length: usize, protection: i32) -> i32;
    fn sysconf(name: i32) -> i64;
    fn prctl(option: i32, ...) -> i32;
}

const PROT_READ: i32 = 1;
const PROT_WRITE: i32 = 2;
const MAP_SHARED: i32 = 1;
const SC_PAGESIZE: i32 = 30;
const PR_SET_DUMPABLE: i32 = 4;
const SIGSEGV: i32 = 11;
const FILE: &str = "TRAY_BEGIN_FILE";

fn page() -> usize {
    unsafe { sysconf(SC_PAGESIZE) as usize }
}

/// The other process: it does not come back from `begin`.
#[test]
#[ignore = "ends the process; the test below starts it in one of its own"]
fn ends_at_the_number() {
    let file = File::options().read(true).write(true).open(env::var(FILE).unwrap()).unwrap();
    let mark = unsafe {
        // Its end is meant, and leaves no core.
        assert_eq!(prctl(PR_SET_DUMPABLE, 0u64), 0);
        let first = mmap(ptr::null_mut(), 2 * page(), PROT_READ | PROT_WRITE, MAP_SHARED, file.as_raw_fd(), 0);
        assert_ne!(first as isize, -1);
        let second = first.cast::<u8>().add(page());
        assert_eq!(mprotect(second.cast(), page(), PROT_READ), 0);
        &mut *second.sub(8).cast::<[u64; 2]>()
    };
    begin(mark, JobNumber(3));
}

#[test]
fn the_position_is_stored_first() {
    let path = PathBuf::from(env!("CARGO_TARGET_TMPDIR")).join("begin");
    let mut content = vec![0; 2 * page()];
    content[page() - 8..page() + 8].copy_from_slice(&[7u64.to_le_bytes(), 2u64.to_le_bytes()].concat());
    fs::write(&path, content).unwrap();
    let mut other = Command::new(env::current_exe().unwrap());
    other.args(["ends_at_the_number", "--ignored", "--exact"]).env(FILE, &path).stdout(Stdio::null());
    let ended = other.status().unwrap();
    assert_eq!(ended.signal(), Some(SIGSEGV), "{ended}");
    let left = fs::read(&path).unwrap();
    assert_eq!(left[page() - 8..page() + 8], [0u64.to_le_bytes(), 2u64.to_le_bytes()].concat());
}
