//! Job folders and what happens to them: workers that are gone at any moment, another boot, copies, changed inputs, shared
//! and damaged files. A worker that is dropped without `stop` leaves what a killed one leaves.

use std::fs::{self, OpenOptions};
use std::io::{Read, Seek, SeekFrom, Write};
use std::os::unix::fs::{symlink, MetadataExt};
use std::path::{Path, PathBuf};
use std::sync::atomic::{AtomicUsize, Ordering};
use std::thread;
use std::time::Duration;
use tray::{Inputs, JobNumber, Layer, Source, Stack, Window};
use tray_folder::{Durable, Error, Folder, TakenUp, Worker};

const WIDTH: usize = 20;
const HEIGHT: usize = 13;
const PIXELS: u64 = (WIDTH * HEIGHT) as u64;
const LAYERS: usize = 3;
const TOTAL: u64 = (LAYERS as u64 + 1) * PIXELS;

/// Marks within phases, at their ends and beside them.
const MARKS: [u64; 9] = [0, 1, PIXELS - 1, PIXELS, PIXELS + 1, 2 * PIXELS + 99, 3 * PIXELS, TOTAL - 1, TOTAL];

/// The windows of a job's layers.
const WINDOWS: [Window; LAYERS] = [Window::FULL, Window { left: 3, top: 2, width: 9, height: 7 }, Window::FULL];

/// A new folder for one test's jobs.
fn room(name: &str) -> PathBuf {
    let room = PathBuf::from(env!("CARGO_TARGET_TMPDIR")).join(name);
    let _ = fs::remove_dir_all(&room);
    fs::create_dir_all(&room).unwrap();
    room
}

fn make(path: &Path) -> Folder {
    make_with(path, 2)
}

/// A job whose layers lie so many pixels further down.
fn make_with(path: &Path, down: i64) -> Folder {
    make_within(path, down, WINDOWS)
}

fn make_within(path: &Path, down: i64, windows: [Window; LAYERS]) -> Folder {
    let words: Vec<u32> = (0..4 * WIDTH * HEIGHT).map(|n| ((n * 7919 % 1000) as f32 / 1000.0).to_bits()).collect();
    let source = Source { first: 0, width: WIDTH as i64, height: HEIGHT as i64, channels: 4 };
    let mut layers = ["over", "plus", "xor"].map(|name| Layer::new(name.parse().unwrap(), source));
    for (layer, window) in layers.iter_mut().zip(windows) {
        (layer.offset, layer.window) = ((1, down), window);
    }
    let stack = Stack::new(&layers);
    let inputs = Inputs {
        width: WIDTH as i64,
        height: HEIGHT as i64,
        channels: 4,
        dst: &words,
        layers: stack.layers(),
        table: &stack.table,
        args: &stack.args,
        samples: &words,
    };
    Folder::create(path, &inputs, &["a", "b", "c"].map(String::from)).unwrap()
}

fn worker(folder: &Folder, durable: Durable) -> Worker {
    Worker::new(folder, folder.lock(false).unwrap(), durable).unwrap()
}

/// Calls until the mark is raised by `pixels`, or the job is finished.
fn go_on(worker: &mut Worker, mut pixels: u64) {
    while pixels != 0 {
        let progress = worker.call(pixels.saturating_mul(5)).unwrap();
        pixels -= progress.stores / 5;
        if progress.finished {
            return;
        }
    }
}

/// The picture of a job that is run to its end.
fn finish(folder: &Folder) -> Vec<u32> {
    let mut last = worker(folder, Durable::Phase);
    go_on(&mut last, u64::MAX);
    last.stop().unwrap();
    folder.finished().unwrap()
}

fn copy(from: &Path, to: &Path) -> Folder {
    fs::create_dir(to).unwrap();
    for entry in fs::read_dir(from).unwrap().map(Result::unwrap) {
        fs::copy(entry.path(), to.join(entry.file_name())).unwrap();
    }
    Folder::open(to).unwrap()
}

/// As another boot finds it: the mark is not to be trusted.
fn another_boot(folder: &Folder) {
    let held = folder.path().join("held");
    let text = fs::read_to_string(&held).unwrap();
    let boot = text.lines().nth(1).unwrap().to_string();
    fs::write(&held, text.replace(&boot, "boot 00000000-0000-0000-0000-000000000000")).unwrap();
}

fn change_byte(path: &Path, at: u64) {
    let mut file = OpenOptions::new().read(true).write(true).open(path).unwrap();
    let mut byte = [0];
    file.seek(SeekFrom::Start(at)).unwrap();
    file.read_exact(&mut byte).unwrap();
    file.seek(SeekFrom::Start(at)).unwrap();
    file.write_all(&[byte[0] ^ 1]).unwrap();
}

/// Where files' times are coarse, a change within some milliseconds of the job's making has the same time.
fn wait_for_another_time() {
    thread::sleep(Duration::from_millis(20));
}

fn says<T>(result: Result<T, Error>) -> String {
    result.map(drop).unwrap_err().to_string()
}

#[test]
fn a_worker_that_is_gone_at_any_mark() {
    let room = room("gone");
    let whole = finish(&make(&room.join("whole")));
    for mark in MARKS {
        for durable in [Durable::Phase, Durable::End] {
            let folder = make(&room.join(format!("job{mark}{durable:?}")));
            go_on(&mut worker(&folder, durable), mark);
            assert_eq!(folder.position().unwrap(), mark);
            // The next worker of this boot goes on at the mark; in another boot at the last phase, or at the beginning.
            let elsewhere = copy(folder.path(), &room.join(format!("copy{mark}{durable:?}")));
            another_boot(&folder);
            let kept = match durable {
                Durable::Phase => (mark.saturating_sub(1)) / PIXELS * PIXELS,
                Durable::End => 0,
            };
            assert_eq!(folder.position().unwrap(), kept, "mark {mark}, {durable:?}");
            assert_eq!(elsewhere.position().unwrap(), kept, "a copy at mark {mark}, {durable:?}");
            assert!(folder.finished().is_err());
            let next = worker(&folder, Durable::Phase);
            assert_eq!(next.taken_up(), if mark == kept { TakenUp::Mark } else { TakenUp::Checkpoint(kept) });
            drop(next);
            assert_eq!(folder.position().unwrap(), kept);
            assert!(finish(&folder) == whole && finish(&elsewhere) == whole, "mark {mark}, {durable:?}");
        }
    }
}

#[test]
fn a_stop_is_stored_wherever_it_is() {
    let room = room("stop");
    for mark in MARKS {
        for durable in [Durable::Phase, Durable::End] {
            let folder = make(&room.join(format!("job{mark}{durable:?}")));
            let mut first = worker(&folder, durable);
            go_on(&mut first, mark);
            first.stop().unwrap();
            another_boot(&folder);
            assert_eq!(folder.position().unwrap(), mark);
            assert_eq!(folder.finished().is_ok(), mark == TOTAL);
        }
    }
}

/// A copy that was begun before a phase and ended after it has a checkpoint whose picture it has not.
#[test]
fn files_of_different_moments() {
    let room = room("moments");
    let folder = make(&room.join("job"));
    let mut first = worker(&folder, Durable::Phase);
    go_on(&mut first, 2 * PIXELS + 7);
    let early = copy(folder.path(), &room.join("early"));
    assert_eq!(early.position().unwrap(), 2 * PIXELS);
    go_on(&mut first, PIXELS + 3 * WIDTH as u64);
    let mixed = copy(folder.path(), &room.join("mixed"));
    assert_eq!(mixed.position().unwrap(), 3 * PIXELS);
    fs::copy(early.path().join("checkpoint"), mixed.path().join("checkpoint")).unwrap();
    assert_eq!(mixed.position().unwrap(), 0);
    go_on(&mut first, u64::MAX);
    first.stop().unwrap();
    for folder in [early, mixed] {
        assert_eq!(finish(&folder), Folder::open(&room.join("job")).unwrap().finished().unwrap());
    }
}

#[test]
fn a_finished_picture_that_was_damaged_is_not_called_finished() {
    let room = room("damaged");
    let folder = make(&room.join("job"));
    let whole = finish(&folder);
    let elsewhere = copy(folder.path(), &room.join("copy"));
    assert_eq!(elsewhere.finished().unwrap(), whole);
    for name in ["work1", "checkpoint", "mark"] {
        let damaged = copy(folder.path(), &room.join(name));
        change_byte(&damaged.path().join(name), 5);
        assert_eq!(damaged.finished().is_ok(), name == "mark", "{name}");
        assert_eq!(finish(&damaged), whole);
    }
    fs::remove_file(elsewhere.path().join("checkpoint")).unwrap();
    assert_eq!(elsewhere.position().unwrap(), 0);
    // Where the mark is trusted too: the checkpoint belies it.
    change_byte(&folder.path().join("work1"), 3210);
    assert!(!folder.is_finished().unwrap());
    assert_eq!(finish(&folder), whole);
}

/// The same in the middle: the pictures of a checkpoint in the mark's phase hold, or the job begins anew.
#[test]
fn memory_that_was_damaged_under_its_mark() {
    let room = room("under_mark");
    let whole = finish(&make(&room.join("whole")));
    for (name, byte) in [("work0", 4000), ("work1", 16)] {
        let folder = make(&room.join(name));
        let mut first = worker(&folder, Durable::Phase);
        go_on(&mut first, PIXELS + 99);
        first.stop().unwrap();
        go_on(&mut worker(&folder, Durable::Phase), 50);
        change_byte(&folder.path().join(name), byte);
        let next = worker(&folder, Durable::Phase);
        assert_eq!(next.taken_up(), TakenUp::Checkpoint(0), "{name}");
        drop(next);
        assert_eq!(finish(&folder), whole, "{name}");
    }
}

#[test]
fn changed_inputs() {
    let room = room("changed");
    let folder = make(&room.join("job"));
    let whole = finish(&make(&room.join("whole")));
    for name in ["dst", "table", "args", "samples"] {
        go_on(&mut worker(&folder, Durable::Phase), 100);
        let path = folder.path().join(name);
        change_byte(&path, 40);
        let said = says(Worker::new(&folder, folder.lock(false).unwrap(), Durable::Phase));
        assert!(said.starts_with(&format!("{}: changed since the job was made", path.display())), "{said}");
        // Only the one that has changed cannot be read.
        let read =
            [folder.dst().map(drop), folder.table().map(drop), folder.args().map(drop), folder.samples().map(drop)];
        let refused: Vec<String> = read.into_iter().filter_map(|read| read.err()).map(|e| e.to_string()).collect();
        assert_eq!(refused, [said]);
        change_byte(&path, 40);
    }
    assert_eq!(finish(&folder), whole);
}

#[test]
fn inputs_as_they_were_given() {
    let folder = make_with(&room("given").join("job"), 7);
    let table = folder.table().unwrap();
    let rows: Vec<&[i64]> = table.chunks(tray::COLUMNS).collect();
    assert_eq!(rows[1], [5, 0, 1, 7, 60, 0, WIDTH as i64, HEIGHT as i64, 4, 0, 3, 2, 9, 7]);
    assert_eq!(rows[2], [4, 0, 1, 7, 60, 0, WIDTH as i64, HEIGHT as i64, 4, 0, 0, 0, 2048, 2048]);
    assert_eq!(folder.windows().unwrap(), WINDOWS);
    assert_eq!((rows.len(), folder.args().unwrap().list()), (LAYERS, &[0; LAYERS * tray::ARGUMENTS][..]));
    assert_eq!(folder.samples().unwrap().list(), folder.dst().unwrap().list());
    assert_eq!(folder.dst().unwrap().list().len() as u64, 4 * PIXELS);
}

/// An input that changes while a worker has it: what was made of it is never called finished, nor taken up.
#[test]
fn changed_under_a_worker() {
    let room = room("under");
    let whole = finish(&make(&room.join("whole")));
    for (name, durable) in [("samples", Durable::Phase), ("dst", Durable::End), ("table", Durable::Phase)] {
        let folder = make(&room.join(name));
        let mut first = worker(&folder, durable);
        go_on(&mut first, PIXELS - 1);
        wait_for_another_time();
        // Of the table this is the first layer's offset.
        change_byte(&folder.path().join(name), 16);
        let mut worked = || loop {
            if first.call(u64::MAX)?.finished {
                return Ok(());
            }
        };
        let said = says(worked().and_then(|()| first.stop()));
        assert!(said.ends_with("replaced, or its inputs changed, while a worker had it"), "{said}");
        assert!(!folder.is_finished().unwrap());
        change_byte(&folder.path().join(name), 16);
        assert_eq!(finish(&folder), whole, "{name}");
    }
}

/// A backup that is written over a job keeps its files' numbers, and brings the older `held` along.
#[test]
fn a_backup_written_over_a_job() {
    let room = room("backup");
    let folder = make(&room.join("job"));
    let mut first = worker(&folder, Durable::Phase);
    go_on(&mut first, 2 * PIXELS + 99);
    copy(folder.path(), &room.join("backup"));
    go_on(&mut first, PIXELS);
    // The backup had the mark of a later moment.
    fs::copy(folder.path().join("mark"), room.join("backup/mark")).unwrap();
    go_on(&mut first, u64::MAX);
    first.stop().unwrap();
    let whole = folder.finished().unwrap();
    wait_for_another_time();
    for entry in fs::read_dir(room.join("backup")).unwrap().map(Result::unwrap) {
        fs::write(folder.path().join(entry.file_name()), fs::read(entry.path()).unwrap()).unwrap();
    }
    assert_eq!(folder.position().unwrap(), 2 * PIXELS);
    assert_eq!(finish(&folder), whole);
}

/// The mark counts in no other file than the one that it was written in, nor with other work buffers.
#[test]
fn another_file_of_the_same_name() {
    let room = room("another");
    for name in ["work0", "work1", "mark", "job", "lock", "samples"] {
        let folder = make(&room.join(name));
        go_on(&mut worker(&folder, Durable::Phase), PIXELS + 99);
        assert_eq!(folder.position().unwrap(), PIXELS + 99);
        fs::copy(folder.path().join(name), folder.path().join("new")).unwrap();
        fs::rename(folder.path().join("new"), folder.path().join(name)).unwrap();
        assert_eq!(folder.position().unwrap(), PIXELS, "{name}");
    }
    let held = fs::read_to_string(room.join("mark/held")).unwrap();
    let boot = fs::read_to_string("/proc/sys/kernel/random/boot_id").unwrap();
    assert!(held.contains(&format!("\nboot {}\n", boot.trim())), "{held}");
}

/// Pictures and checkpoint of one job are nothing in another, be it of the same inputs.
#[test]
fn another_jobs_checkpoint() {
    let room = room("foreign");
    let one = make(&room.join("one"));
    finish(&one);
    for down in [2, 3] {
        let other = make_with(&room.join(format!("other{down}")), down);
        for name in ["work0", "work1", "checkpoint"] {
            fs::copy(one.path().join(name), other.path().join(name)).unwrap();
        }
        assert_eq!(other.position().unwrap(), 0);
        assert!(!other.is_finished().unwrap());
    }
}

/// The files that a worker writes, and those that it keeps besides.
fn memory(folder: &Folder) -> Vec<Option<Vec<u8>>> {
    let read = |name: &str| fs::read(folder.path().join(name)).ok();
    ["work0", "work1", "mark", "checkpoint", "held"].map(read).into()
}

/// What is said of the folder `job` with the mark of the job `other`.
fn anothers(job: &Folder, other: &Folder) -> String {
    format!(
        "{}: refused: 14 JOB NUMBER: the mark is another job's: it has job number {}, and this job's is {}; \
        bring its own mark back, or make the job anew",
        job.path().display(),
        other.number(),
        job.number()
    )
}

/// The mark of another job of the same dimensions, copied in or moved in, and so trusted or not; at the beginning, within a
/// phase and at the end. It is refused and nothing is written; with its own mark the job goes on where it was.
#[test]
fn another_jobs_mark() {
    let room = room("mark");
    let whole = finish(&make(&room.join("whole")));
    for (n, mark) in MARKS.into_iter().enumerate() {
        for moved in [false, true] {
            let name = |what: &str| room.join(format!("{what}{n}{moved}"));
            let (job, other) = (make(&name("job")), make_with(&name("other"), 3));
            go_on(&mut worker(&job, Durable::Phase), PIXELS + 99);
            go_on(&mut worker(&other, Durable::Phase), mark);
            let (file, own) = (job.path().join("mark"), fs::read(job.path().join("mark")).unwrap());
            match moved {
                true => fs::rename(other.path().join("mark"), &file).unwrap(),
                false => drop(fs::copy(other.path().join("mark"), &file).unwrap()),
            }
            let before = memory(&job);
            let said = anothers(&job, &other);
            assert_eq!(says(job.position()), said);
            assert_eq!(says(job.finished()), said);
            let refused = Worker::new(&job, job.lock(false).unwrap(), Durable::Phase).map(drop).unwrap_err();
            assert!(matches!(&refused, Error::AnothersMark { mark, job: own, .. }
                if (*mark, *own) == (other.number(), job.number())));
            assert_eq!(refused.to_string(), said);
            assert_eq!(memory(&job), before, "something was written, with mark {mark}");
            fs::write(&file, own).unwrap();
            assert_eq!(job.position().unwrap(), if moved { PIXELS } else { PIXELS + 99 });
            assert_eq!(finish(&job), whole, "mark {mark}");
        }
    }
}

/// A mark with another number that is written under a worker: the library's own call refuses it, and no checkpoint is made of it,
/// neither before the next phase nor at the worker's end.
#[test]
fn another_number_under_a_worker() {
    let room = room("number_under");
    let whole = finish(&make(&room.join("whole")));
    for (position, allowance) in [(PIXELS + 5, 0), (PIXELS + 5, 50), (2 * PIXELS, u64::MAX), (TOTAL, 5)] {
        let job = make(&room.join(format!("job{position}{allowance}")));
        let other = JobNumber(job.number().0 ^ 1 << 40);
        let mark = |number: JobNumber, position: u64| {
            fs::write(job.path().join("mark"), [position.to_le_bytes(), number.0.to_le_bytes()].concat()).unwrap();
        };
        let mut first = worker(&job, Durable::Phase);
        go_on(&mut first, position);
        mark(other, position);
        let before = memory(&job);
        let said = says(first.call(allowance));
        assert!(said.contains(&format!("has job number {other}, and this job's is {}; ", job.number())), "{said}");
        assert_eq!(says(first.stop()), said);
        assert_eq!(memory(&job), before, "something was written at {position}");
        mark(job.number(), position);
        assert_eq!(job.position().unwrap(), position);
        assert_eq!(finish(&job), whole, "{position}");
    }
}

/// Each job has a number of its own, a copy the same; it stands in the description and in the mark, and no worker writes it.
#[test]
fn job_numbers() {
    let room = room("numbers");
    let jobs: Vec<Folder> = (0..48).map(|n| make(&room.join(n.to_string()))).collect();
    let mut numbers: Vec<u64> = jobs.iter().map(|job| job.number().0).collect();
    numbers.sort_unstable();
    numbers.dedup();
    assert_eq!(numbers.len(), jobs.len(), "two jobs have one number");
    // Each bit is 0 in some and 1 in others; by chance it is not so once in 10^12 runs.
    assert_eq!(numbers.iter().fold((0, 0), |(some, none), n| (some | n, none | !n)), (u64::MAX, u64::MAX));
    let (job, copied) = (&jobs[0], copy(jobs[0].path(), &room.join("copy")));
    assert_eq!(copied.number(), job.number());
    let text = fs::read_to_string(job.path().join("job")).unwrap();
    assert_eq!(text.lines().nth(1), Some(&format!("number {:016x}", job.number().0)[..]));
    let mark = |position: u64| [position.to_le_bytes(), job.number().0.to_le_bytes()].concat();
    assert_eq!(fs::read(job.path().join("mark")).unwrap(), mark(0));
    go_on(&mut worker(job, Durable::Phase), 2 * PIXELS + 7);
    assert_eq!(fs::read(job.path().join("mark")).unwrap(), mark(2 * PIXELS + 7));
    another_boot(job);
    assert_eq!(worker(job, Durable::Phase).mark(), 2 * PIXELS);
    assert_eq!(fs::read(job.path().join("mark")).unwrap(), mark(2 * PIXELS));
    finish(job);
    assert_eq!(fs::read(job.path().join("mark")).unwrap(), mark(TOTAL));
}

#[test]
fn a_folder_that_is_replaced_under_a_worker() {
    let room = room("replaced");
    let folder = make(&room.join("job"));
    let mut first = worker(&folder, Durable::Phase);
    go_on(&mut first, PIXELS);
    fs::rename(folder.path(), room.join("away")).unwrap();
    make(folder.path());
    assert!(says(first.call(u64::MAX)).ends_with("replaced, or its inputs changed, while a worker had it"));
    assert!(!folder.path().join("checkpoint").exists());
    // A lock of the folder that is away is none of the new one.
    drop(first);
    let away = Folder::open(&room.join("away")).unwrap().lock(false).unwrap();
    assert!(matches!(Worker::new(&folder, away, Durable::Phase), Err(Error::Busy(_))));
}

#[test]
fn links_are_refused() {
    let room = room("links");
    for (n, name) in ["work0", "work1", "mark", "lock", "dst", "samples", "job"].iter().enumerate() {
        for hard in [false, true] {
            let path = room.join(format!("job{n}{hard}"));
            make(&path);
            let other = room.join(format!("other{n}{hard}"));
            fs::rename(path.join(name), &other).unwrap();
            match hard {
                true => fs::hard_link(&other, path.join(name)).unwrap(),
                false => symlink(&other, path.join(name)).unwrap(),
            }
            assert!(says(Folder::open(&path))
                .ends_with(&format!("{name}: a job's file is a regular one with no other name, and no link")));
        }
    }
}

/// The storage keeps room for the work buffers, in a copy with holes too.
#[test]
fn room_is_kept() {
    let room = room("room");
    let kept = |folder: &Folder| {
        let data = ["work0", "work1"].map(|name| fs::metadata(folder.path().join(name)).unwrap());
        data.iter().all(|data| data.blocks() * 512 >= data.len() && data.len() == 16 * PIXELS)
    };
    let folder = make(&room.join("job"));
    assert!(kept(&folder));
    for name in ["work0", "work1"] {
        fs::File::create(folder.path().join(name)).unwrap().set_len(16 * PIXELS).unwrap();
    }
    assert!(!kept(&folder));
    worker(&folder, Durable::Phase);
    assert!(kept(&folder));
}

#[test]
fn a_damaged_description() {
    let room = room("description");
    let path = room.join("job");
    make(&path);
    let text = fs::read_to_string(path.join("job")).unwrap();
    for channels in ["0", "2", "5", "4 4", "x", "99999999999999999999"] {
        fs::write(path.join("job"), text.replacen("20 13 4", &format!("20 13 {channels}"), 1)).unwrap();
        let said = says(Folder::open(&path));
        assert!(said.starts_with(&format!("{}: damaged: ", path.join("job").display())), "{said}");
    }
    fs::write(path.join("job"), b"\xff\xfe").unwrap();
    assert!(says(Folder::open(&path)).ends_with(": not a job of edition tray-job-2, tray-job-3 or tray-job-4"));
    fs::remove_file(path.join("job")).unwrap();
    fs::create_dir(path.join("job")).unwrap();
    assert!(says(Folder::open(&path)).ends_with("job: a job's file is a regular one with no other name, and no link"));
    fs::remove_dir(path.join("job")).unwrap();
    assert_eq!(says(Folder::open(&path)), format!("{}: no job folder", path.display()));
}

#[test]
fn a_mark_beyond_the_end() {
    let room = room("beyond");
    let folder = make(&room.join("job"));
    go_on(&mut worker(&folder, Durable::Phase), 300);
    let taken_up = || Worker::new(&folder, folder.lock(false).unwrap(), Durable::Phase);
    let beyond = [(TOTAL + 1).to_le_bytes(), folder.number().0.to_le_bytes()].concat();
    fs::write(folder.path().join("mark"), &beyond).unwrap();
    assert!(says(folder.position()).contains("refused: 10 MARK"));
    assert!(says(taken_up()).contains("refused: 10 MARK"));
    for length in [0, 7, 8, 15, 17] {
        let bytes: Vec<u8> = beyond.iter().copied().cycle().take(length).collect();
        fs::write(folder.path().join("mark"), bytes).unwrap();
        let said = format!("mark: has {length} bytes, not 16");
        assert!(says(folder.position()).ends_with(&said) && says(taken_up()).ends_with(&said), "{said}");
    }
    // Another job's is told as such wherever it stands.
    fs::write(folder.path().join("mark"), [(TOTAL + 1).to_le_bytes(), [0; 8]].concat()).unwrap();
    assert!(says(folder.position()).contains("refused: 14 JOB NUMBER"));
    assert!(says(taken_up()).contains("refused: 14 JOB NUMBER"));
    // In a copy the position counts for nothing, and the number does.
    let copied = copy(folder.path(), &room.join("copy"));
    assert!(says(copied.position()).contains("refused: 14 JOB NUMBER"));
    fs::write(copied.path().join("mark"), &beyond).unwrap();
    assert_eq!(copied.position().unwrap(), PIXELS);
}

/// Workers who try and people who ask, all at once: somebody has it soon.
#[test]
fn many_try_at_once() {
    let room = room("many");
    let folder = make(&room.join("job"));
    let had = AtomicUsize::new(0);
    thread::scope(|scope| {
        for n in 0..8 {
            let (folder, had) = (&folder, &had);
            scope.spawn(move || {
                for _ in 0..20 {
                    if n < 4 {
                        folder.has_worker().unwrap();
                    } else if let Ok(_lock) = folder.lock(false) {
                        had.fetch_add(1, Ordering::Relaxed);
                    }
                }
            });
        }
    });
    assert_ne!(had.into_inner(), 0);
}

#[test]
fn one_worker_at_a_time() {
    let room = room("lock");
    let folder = make(&room.join("job"));
    let first = folder.lock(false).unwrap();
    assert!(folder.has_worker().unwrap());
    assert!(matches!(folder.lock(false), Err(Error::Busy(_))));
    // Whoever waits for a job that is removed and made again gets the lock of the new one.
    let waiting = folder.clone();
    let waits = thread::spawn(move || waiting.lock(true).unwrap());
    thread::sleep(Duration::from_millis(100));
    fs::remove_dir_all(folder.path()).unwrap();
    make(folder.path());
    drop(first);
    let second = waits.join().unwrap();
    assert!(folder.has_worker().unwrap());
    drop(second);
    assert!(!folder.has_worker().unwrap());
    folder.lock(true).unwrap();
}

#[test]
fn a_folder_that_exists_and_what_killed_makers_leave() {
    let room = room("make");
    let left = room.join(".tray-1-0");
    fs::create_dir(&left).unwrap();
    fs::write(left.join("dst"), b"part").unwrap();
    let not_ours = room.join(".tray-2-0");
    fs::create_dir(&not_ours).unwrap();
    fs::write(not_ours.join("notes"), b"mine").unwrap();
    fs::write(room.join(".tray-3"), b"mine").unwrap();
    make(&room.join("job"));
    assert!(!left.exists() && not_ours.join("notes").exists() && room.join(".tray-3").exists());
    assert!(fs::read_dir(&room).unwrap().count() == 3, "something is left");
    let inputs = Inputs { width: 0, height: 0, channels: 4, dst: &[], layers: 0, table: &[], args: &[], samples: &[] };
    assert!(says(Folder::create(&room.join("no"), &inputs, &[])).contains("refused: 1 STACK"));
    let layer = Stack::new(&[Layer::new(tray::Operator::Over, Source { first: 0, width: 0, height: 0, channels: 4 })]);
    let empty = Inputs { layers: 1, table: &layer.table, args: &layer.args, ..inputs };
    assert!(says(Folder::create(&room.join("job"), &empty, &[])).ends_with("job: exists"));
    assert!(says(Folder::create(&room.join(".tray-1-2"), &empty, &[])).contains("a name of jobs that are being made"));
    let folder = Folder::create(&room.join("new/folders/empty"), &empty, &[]).unwrap();
    assert!(finish(&folder).is_empty());
}

/// A job as the crate of an older edition wrote it: its description, and the checkpoints of workers that stopped within the first
/// layer and at the end.
struct Old {
    windows: [Window; LAYERS],
    columns: usize,
    job: &'static str,
    checkpoints: [(u64, &'static str); 2],
}

/// When layers had no windows.
const EDITION_2: Old = Old {
    windows: [Window::FULL; LAYERS],
    columns: 10,
    job: "\
tray-job-2 20 13 4 3 1040
dst 72fb0517f1c1b2c2
table 4ddf22db5bf1bc13
args 7869c3727bf8a6ec
samples 72fb0517f1c1b2c2
job a4497f6e64885f4f
",
    checkpoints: [
        (PIXELS + 99, "tray-checkpoint-1 359 df721f0d14d84026\n"),
        (TOTAL, "tray-checkpoint-1 1040 d9fc1feaf2d8f9bc\n"),
    ],
};

/// When jobs had no numbers.
const EDITION_3: Old = Old {
    windows: WINDOWS,
    columns: 14,
    job: "\
tray-job-3 20 13 4 3 1040
dst 72fb0517f1c1b2c2
table 3f9c2c902115726d
args 7869c3727bf8a6ec
samples 72fb0517f1c1b2c2
job 73e42c33062ab51e
",
    checkpoints: [
        (PIXELS + 99, "tray-checkpoint-1 359 143c4b5fe1f201c2\n"),
        (TOTAL, "tray-checkpoint-1 1040 9deb05da7332ce8f\n"),
    ],
};

/// The same job as a folder of an older edition, stopped at this position. The pictures are this library's, and the digests that
/// they must have are of the pictures of the library of that time.
fn old(path: &Path, edition: &Old, position: u64) -> Folder {
    let folder = make_within(path, 2, edition.windows);
    let mut first = worker(&folder, Durable::Phase);
    go_on(&mut first, position);
    first.stop().unwrap();
    let rows = folder.table().unwrap();
    let kept = rows.chunks(tray::COLUMNS).flat_map(|row| &row[..edition.columns]);
    fs::write(path.join("table"), kept.flat_map(|number| number.to_le_bytes()).collect::<Vec<u8>>()).unwrap();
    fs::write(path.join("mark"), position.to_le_bytes()).unwrap();
    fs::write(path.join("job"), edition.job).unwrap();
    if let Some((_, checkpoint)) = edition.checkpoints.iter().find(|(at, _)| *at == position) {
        fs::write(path.join("checkpoint"), checkpoint).unwrap();
    }
    fs::remove_file(path.join("held")).unwrap();
    Folder::open(path).unwrap()
}

/// A job of an older edition is taken over at its position, with the number 0 and, if it had no windows, with full ones. It stays of
/// its edition: its inputs are as they were, and its mark has eight bytes all the time.
#[test]
fn jobs_of_older_editions() {
    let room = room("editions");
    for (n, edition) in [EDITION_2, EDITION_3].iter().enumerate() {
        let new = make_within(&room.join(format!("new{n}")), 2, edition.windows);
        let whole = finish(&new);
        for position in [0, PIXELS + 99, TOTAL] {
            let folder = old(&room.join(format!("job{n}{position}")), edition, position);
            let given = |name: &str| fs::read(folder.path().join(name)).unwrap();
            let inputs = || ["job", "table", "dst", "args", "samples", "names", "lock"].map(given);
            let before = inputs();
            let mark = |wanted: u64| assert_eq!(given("mark"), wanted.to_le_bytes());
            assert_eq!((folder.position().unwrap(), folder.is_finished().unwrap()), (position, position == TOTAL));
            assert_eq!((folder.number(), folder.windows().unwrap()), (JobNumber(0), edition.windows.to_vec()));
            assert_eq!(folder.table().unwrap(), new.table().unwrap());
            // A worker that is gone, another boot, one to the end.
            let mut first = worker(&folder, Durable::Phase);
            mark(position);
            go_on(&mut first, 2 * PIXELS + 7);
            let reached = (position + 2 * PIXELS + 7).min(TOTAL);
            mark(reached);
            drop(first);
            assert_eq!(folder.position().unwrap(), reached);
            another_boot(&folder);
            assert_eq!(finish(&folder), whole, "position {position}");
            mark(TOTAL);
            assert_eq!(inputs(), before, "position {position}");
            // The end is stored as the older crate stores it, so that it can read it.
            assert_eq!(String::from_utf8(given("checkpoint")).unwrap(), edition.checkpoints[1].1);
        }
    }
    assert_ne!(finish(&make(&room.join("cut"))), finish(&make_within(&room.join("full"), 2, [Window::FULL; LAYERS])));
}

/// A mark of a newer folder is refused in an old one by its length, and the other way round.
#[test]
fn marks_of_another_edition() {
    let room = room("marks");
    let (new, old) = (make(&room.join("new")), old(&room.join("old"), &EDITION_3, PIXELS + 99));
    let (long, short) = (new.path().join("mark"), old.path().join("mark"));
    let (sixteen, eight) = (fs::read(&long).unwrap(), fs::read(&short).unwrap());
    fs::write(&long, &eight).unwrap();
    fs::write(&short, &sixteen).unwrap();
    for (folder, path, what) in [(&new, &long, "has 8 bytes, not 16"), (&old, &short, "has 16 bytes, not 8")] {
        let said = format!("{}: {what}", path.display());
        assert_eq!(says(folder.position()), said);
        assert_eq!(says(Worker::new(folder, folder.lock(false).unwrap(), Durable::Phase)), said);
    }
    fs::write(&short, &eight).unwrap();
    assert_eq!(old.position().unwrap(), PIXELS + 99);
}

/// A table that has not the length of its folder's edition is refused, and so is one that has changed.
#[test]
fn tables_of_another_edition() {
    let room = room("tables");
    let new = make_within(&room.join("new"), 2, [Window::FULL; LAYERS]);
    let old = old(&room.join("old"), &EDITION_2, 0);
    let (long, short) = (new.path().join("table"), old.path().join("table"));
    let (fourteen, ten) = (fs::read(&long).unwrap(), fs::read(&short).unwrap());
    fs::write(&long, &ten).unwrap();
    fs::write(&short, &fourteen).unwrap();
    for (folder, path, what) in [(&new, &long, "has 240 bytes, not 336"), (&old, &short, "has 336 bytes, not 240")] {
        let said = format!("{}: {what}", path.display());
        assert_eq!(says(folder.table()), said);
        assert_eq!(says(folder.windows()), said);
        assert_eq!(says(Worker::new(folder, folder.lock(false).unwrap(), Durable::Phase)), said);
    }
    fs::write(&short, &ten).unwrap();
    change_byte(&short, 100);
    assert!(says(old.table()).ends_with("changed since the job was made; a job's inputs stay the same"));
    // The edition's number alone makes no folder one of another edition.
    let path = old.path().join("job");
    for other in ["tray-job-3", "tray-job-4"] {
        fs::write(&path, EDITION_2.job.replacen("tray-job-2", other, 1)).unwrap();
        assert!(says(Folder::open(old.path())).starts_with(&format!("{}: damaged: ", path.display())));
    }
}
