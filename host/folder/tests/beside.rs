//! Files that are replaced, and what is left beside them by whoever was killed.

use std::fs::{self, Permissions};
use std::os::unix::fs::{symlink, PermissionsExt};
use std::path::{Path, PathBuf};
use std::process::{Command, Stdio};
use std::sync::atomic::{AtomicBool, Ordering};
use std::thread;
use tray_folder::replace_file;

/// A new folder for one test.
fn room(name: &str) -> PathBuf {
    let room = PathBuf::from(env!("CARGO_TARGET_TMPDIR")).join("beside").join(name);
    let _ = fs::remove_dir_all(&room);
    fs::create_dir_all(&room).unwrap();
    room
}

fn mode(path: &Path) -> u32 {
    fs::metadata(path).unwrap().permissions().mode() & 0o777
}

/// The names in a folder.
fn names(folder: &Path) -> Vec<String> {
    let name = |entry: std::io::Result<fs::DirEntry>| entry.unwrap().file_name().into_string().unwrap();
    let mut names: Vec<String> = fs::read_dir(folder).unwrap().map(name).collect();
    names.sort();
    names
}

#[test]
fn new_and_older_files() {
    let room = room("older");
    let (path, plain) = (room.join("a"), room.join("plain"));
    assert!(replace_file(&path, b"one").unwrap());
    fs::write(&plain, b"").unwrap();
    assert_eq!(mode(&path), mode(&plain));
    fs::set_permissions(&path, Permissions::from_mode(0o640)).unwrap();
    replace_file(&path, b"two").unwrap();
    assert_eq!((fs::read(&path).unwrap(), mode(&path)), (b"two".to_vec(), 0o640));
    assert_eq!(names(&room), ["a", "plain"]);
}

#[test]
fn links_stay() {
    let room = room("links");
    let at = |name: &str| room.join(name);
    fs::create_dir(at("far")).unwrap();
    symlink("far/second", at("first")).unwrap();
    symlink("file", at("far/second")).unwrap();
    for content in [b"one", b"two"] {
        replace_file(&at("first"), content).unwrap();
        assert_eq!(fs::read(at("far/file")).unwrap(), content);
    }
    assert_eq!((names(&room).join(" "), names(&at("far")).join(" ")), ("far first".into(), "file second".into()));
    symlink("round", at("round")).unwrap();
    assert!(replace_file(&at("round"), b"").is_err());
}

#[test]
fn errors_leave_nothing() {
    let room = room("errors");
    fs::create_dir(room.join("a")).unwrap();
    assert!(replace_file(&room.join("a"), b"").is_err());
    assert!(replace_file(&room.join("none/a"), b"").is_err());
    assert_eq!(names(&room), ["a"]);
}

/// What nobody holds, by the names that makers give, and nothing else.
#[test]
fn what_is_left_is_swept() {
    let room = room("swept");
    let at = |name: &str| room.join(name);
    for name in [".tray-1-0", ".tray-2-7", ".tray-mine", ".tray-1-", ".tray-1-2x", ".tray-1", "kept"] {
        fs::write(at(name), b"").unwrap();
    }
    fs::create_dir(at(".tray-3-0")).unwrap();
    fs::write(at(".tray-3-0/notes"), b"").unwrap();
    symlink("kept", at(".tray-4-0")).unwrap();
    // Another process holds this one, as a maker does.
    let mut flock = Command::new("flock");
    let holder = flock.arg(at(".tray-2-7")).args(["sh", "-c", "echo held; read _"]);
    let mut holder = holder.stdin(Stdio::piped()).stdout(Stdio::piped()).spawn().unwrap();
    std::io::Read::read_exact(holder.stdout.as_mut().unwrap(), &mut [0; 4]).unwrap();
    replace_file(&at("a"), b"").unwrap();
    drop(holder.stdin.take());
    holder.wait().unwrap();
    let left = [".tray-1", ".tray-1-", ".tray-1-2x", ".tray-2-7", ".tray-3-0", ".tray-4-0", ".tray-mine", "a", "kept"];
    assert_eq!(names(&room), left);
}

/// Whoever sweeps takes nothing from whoever has just made it.
#[test]
fn sweeping_while_others_write() {
    let room = room("others");
    let done = AtomicBool::new(false);
    thread::scope(|scope| {
        let sweeper = scope.spawn(|| {
            while !done.load(Ordering::Relaxed) {
                replace_file(&room.join("sweeper"), b"").unwrap();
            }
        });
        for n in 0..200 {
            replace_file(&room.join(format!("file-{n}")), b"").unwrap();
        }
        done.store(true, Ordering::Relaxed);
        sweeper.join().unwrap();
    });
    assert_eq!(names(&room).len(), 201);
}

/// Something that is no regular file is written as it is.
#[test]
fn a_pipe_stays() {
    let room = room("pipe");
    assert!(Command::new("mkfifo").arg(room.join("pipe")).status().unwrap().success());
    let path = room.join("pipe");
    let reader = thread::spawn(move || fs::read(path).unwrap());
    assert!(!replace_file(&room.join("pipe"), b"through").unwrap());
    assert_eq!(reader.join().unwrap(), b"through");
}
