//! A job folder: `job` (description.rs), the inputs `dst`, `table`, `args`, `samples`, and `names` (a line of text a layer,
//! for people), what calls write, `work0`, `work1` and `mark`, each list as it stands in memory, low byte first; `lock`, which
//! the worker holds; and what a worker keeps for the one after it, `checkpoint` and `held` (checkpoint.rs, held.rs). The mark is
//! the position and the job number, which is written when the folder is made and never again.

use crate::beside::{folder_of, is_a_parts_name, is_at, sweep, Part};
use crate::checkpoint::{place, Checkpoint, Pictures};
use crate::description::{Description, Edition, INPUTS};
use crate::digest::digest;
use crate::error::{At, Error, Result};
use crate::list::List;
use crate::system::{bytes, Element};
use crate::{held, storage, system};
use std::fs::{self, File, OpenOptions};
use std::io::ErrorKind;
use std::os::unix::fs::MetadataExt;
use std::path::{Path, PathBuf};
use std::{thread, time::Duration};
use tray::{Fault, Inputs, JobNumber, Memory, Refusal, Window, ARGUMENTS, COLUMNS};

pub(crate) const WORK: [&str; 2] = ["work0", "work1"];
const MARK: &str = "mark";
pub(crate) const CHECKPOINT: &str = "checkpoint";
const JOB: &str = "job";
const LOCK: &str = "lock";

/// What a worker writes, and what it rests on.
const MEMORY: [&str; 3] = [WORK[0], WORK[1], MARK];
const GIVEN: [&str; 6] = [JOB, LOCK, INPUTS[0], INPUTS[1], INPUTS[2], INPUTS[3]];
const NAMES: &str = "names";

/// A job folder that exists, by its numbers.
#[derive(Clone, Debug, PartialEq)]
pub struct Folder {
    path: PathBuf,
    job: Description,
}

/// The worker's lock on a job.
pub struct Lock {
    file: File,
}

impl Folder {
    /// Reads a folder's description. Its files must be its own: regular ones, with no name besides, and no two the same, as a
    /// bind mount makes them without a name; since a job's lists share no memory, neither with each other nor with another job's.
    pub fn open(path: &Path) -> Result<Self> {
        let mut files = vec![];
        for name in GIVEN.iter().chain(&MEMORY) {
            let file = path.join(name);
            let data = match fs::symlink_metadata(&file) {
                Err(error) if *name == JOB && error.kind() == ErrorKind::NotFound => {
                    return Error::wrong(path, "no job folder");
                }
                data => data.at(&file)?,
            };
            let identity = (data.dev(), data.ino());
            if !data.is_file() || data.nlink() > 1 || files.contains(&identity) {
                return Error::wrong(&file, "a job's file is a regular one with no other name, and no link");
            }
            files.push(identity);
        }
        let file = path.join(JOB);
        let text = fs::read(&file).at(&file)?;
        let job = Description::parse(&String::from_utf8_lossy(&text)).or_else(|what| Error::wrong(&file, what))?;
        Ok(Folder { path: path.to_path_buf(), job })
    }

    /// Makes a new folder, whole or not at all, with room for all that its workers write: under another name beside it
    /// first, stored before it gets its own. `names` has a line for each layer. The job number is 64 random bits; where the
    /// system has none, no folder is made. A `create` that is killed leaves at most a hidden folder `.tray-..`, which a later
    /// one beside it removes.
    pub fn create(path: &Path, inputs: &Inputs, names: &[String]) -> Result<Self> {
        accepted(inputs).map_err(|error| Error::Refused(path.to_path_buf(), error))?;
        if fs::symlink_metadata(path).is_ok() {
            return Error::wrong(path, "exists");
        }
        if is_a_parts_name(path) {
            return Error::wrong(path, "a name of jobs that are being made, which others would remove");
        }
        let number = system::random().map(JobNumber);
        let number = number.or_else(|error| Error::wrong(path, format!("no random number for the job: {error}")))?;
        let beside = folder_of(path);
        storage::make_folders(beside).at(beside)?;
        sweep(beside, &[&MEMORY[..], &GIVEN, &[NAMES]].concat());
        let part = Part::folder(beside).at(beside)?;
        fill(part.path(), inputs, number, names).map_err(|error| renamed(error, part.path(), path))?;
        part.becomes(path).at(path)?;
        storage::sync_folder(beside).at(beside)?;
        Folder::open(path)
    }

    /// The folder itself.
    pub fn path(&self) -> &Path {
        &self.path
    }

    /// A file of it.
    pub(crate) fn at(&self, name: &str) -> PathBuf {
        self.path.join(name)
    }

    /// The destination's width.
    pub fn width(&self) -> usize {
        self.job.width
    }

    /// The destination's height.
    pub fn height(&self) -> usize {
        self.job.height
    }

    /// The destination's channels: 1, 3 or 4.
    pub fn channels(&self) -> usize {
        self.job.channels
    }

    /// The count of layers.
    pub fn layers(&self) -> usize {
        self.job.layers
    }

    /// The job number, which its calls carry and its mark has. A copy has the same one. A job from before there were numbers
    /// has 0.
    pub fn number(&self) -> JobNumber {
        self.job.number
    }

    /// The pixels of a picture.
    pub fn pixels(&self) -> usize {
        self.job.width * self.job.height
    }

    /// The position of the finished job.
    pub fn total(&self) -> u64 {
        tray::total(self.job.width as u64, self.job.height as u64, self.job.layers as u64)
    }

    /// The phase that a position lies in, and its pixels written so far.
    pub fn phase(&self, position: u64) -> (u64, u64) {
        tray::phase(position, self.job.width as u64, self.job.height as u64)
    }

    /// How far the job is: the mark's position, which a worker may be raising, where it can be trusted; elsewhere the checkpoint
    /// that the pictures bear out. A mark of another job is refused in either case, and a position beyond the job's end where it
    /// would count.
    pub fn position(&self) -> Result<u64> {
        self.own_mark()?;
        match held::trusted(&self.path, &self.here()?) {
            true => self.mapped_mark(),
            false => Ok(self.checkpoint()?.position),
        }
    }

    /// What `held` says where the folder is now.
    pub(crate) fn here(&self) -> Result<String> {
        held::here(&self.path, &MEMORY, &GIVEN)
    }

    /// The position as the mark's file has it. One beyond the job's end is refused as the library refuses it.
    pub(crate) fn mapped_mark(&self) -> Result<u64> {
        match self.own_mark()? {
            position if position <= self.total() => Ok(position),
            _ => Err(Error::Refused(self.path.clone(), Refusal { fault: Fault::Mark, layer: 0 }.into())),
        }
    }

    /// The position that the mark's file has, whatever it is, if the mark is this job's. It need not be one that a worker would
    /// trust: another job's mark was put here by mistake, wherever the folder is now. Its position says nothing, so that the
    /// number is looked at first, other than in the library's call.
    fn own_mark(&self) -> Result<u64> {
        let path = self.at(MARK);
        let bytes = fs::read(&path).at(&path)?;
        let wanted = 8 * self.job.edition.mark();
        if bytes.len() != wanted {
            return Error::wrong(&path, format!("has {} bytes, not {wanted}", bytes.len()));
        }
        let mut numbers = bytes.chunks_exact(8).map(|b| u64::from_le_bytes(b.try_into().expect("eight bytes")));
        let (position, number) = (numbers.next().unwrap_or(0), numbers.next().unwrap_or(0));
        self.is_own(JobNumber(number)).map(|()| position)
    }

    /// Whether a mark with this number is this job's.
    pub(crate) fn is_own(&self, mark: JobNumber) -> Result<()> {
        match self.number() {
            job if job == mark => Ok(()),
            job => Err(Error::AnothersMark { folder: self.path.clone(), mark, job }),
        }
    }

    /// The mark, mapped as the library wants it, in an old folder too.
    pub(crate) fn mark(&self) -> Result<List<u64>> {
        List::write_past(&self.at(MARK), self.job.edition.mark(), Edition::Numbered.mark())
    }

    /// The checkpoint in the folder, whether its pictures are there or not; without one the beginning.
    pub(crate) fn kept(&self) -> Result<Checkpoint> {
        let path = self.at(CHECKPOINT);
        let text = match fs::read(&path) {
            Err(error) if error.kind() == ErrorKind::NotFound => vec![],
            read => read.at(&path)?,
        };
        let kept = Checkpoint::parse(&String::from_utf8_lossy(&text), self.total());
        Ok(kept.filter(|kept| kept.position != 0).unwrap_or(Checkpoint::START))
    }

    /// The checkpoint in the folder, if the pictures that it rests on are there, and the bytes of the picture beneath it;
    /// otherwise the beginning.
    fn borne_out(&self) -> Result<(Checkpoint, Vec<u8>)> {
        let kept = self.kept()?;
        let (beneath, writing, bytes) = place(kept.position, self.pixels() as u64);
        let beneath = beneath.map_or(Ok(vec![]), |k| self.work_bytes(k))?;
        let writing = if bytes == 0 { vec![] } else { self.work_bytes(writing)? };
        let pictures = Pictures { job: &self.job.text(), beneath: &beneath, written: &writing[..bytes] };
        Ok(if kept.holds(&pictures) { (kept, beneath) } else { (Checkpoint::START, vec![]) })
    }

    /// The checkpoint, as `borne_out` has it.
    pub(crate) fn checkpoint(&self) -> Result<Checkpoint> {
        Ok(self.borne_out()?.0)
    }

    /// The file `job`.
    pub(crate) fn description(&self) -> String {
        self.job.text()
    }

    /// A line for each layer, as it was given to `create`.
    pub fn names(&self) -> Result<Vec<String>> {
        let path = self.at(NAMES);
        let text = fs::read(&path).at(&path)?;
        Ok(String::from_utf8_lossy(&text).lines().map(String::from).collect())
    }

    /// Whether a worker has the job. This asks by a shared lock, which keeps no other asker away.
    pub fn has_worker(&self) -> Result<bool> {
        let path = self.at(LOCK);
        let file = File::open(&path).at(&path)?;
        Ok(!system::try_lock(&file, true).at(&path)?)
    }

    /// The worker's lock; whoever only asks (`has_worker`) is waited for, another worker only if `wait` says so. The system
    /// takes a lock back from a killed process when that process is gone. The file is opened to be written, since a network
    /// file system locks no other.
    pub fn lock(&self, wait: bool) -> Result<Lock> {
        let path = self.at(LOCK);
        loop {
            let file = OpenOptions::new().read(true).write(true).open(&path).at(&path)?;
            if wait {
                system::lock(&file).at(&path)?;
            } else if !system::try_lock(&file, false).at(&path)? {
                if !system::try_lock(&file, true).at(&path)? {
                    return Err(Error::Busy(self.path.clone()));
                }
                // Let go before the next try, or two who try would take each other for one who only asks.
                drop(file);
                thread::sleep(Duration::from_millis(1));
                continue;
            }
            // Whoever waited may have got the lock of a folder that was removed meanwhile.
            if is_at(&file, &path) {
                return Ok(Lock { file });
            }
        }
    }

    /// Whether a lock is this folder's.
    pub(crate) fn is_locked_by(&self, lock: &Lock) -> bool {
        is_at(&lock.file, &self.at(LOCK))
    }

    /// The destination. As each input it must be what the job was made with, or it is refused.
    pub fn dst(&self) -> Result<List<u32>> {
        self.input(0, self.pixels() * self.job.channels)
    }

    /// The layers' numbers, as [`Inputs::table`] has them. Those of a job that was made when layers had no windows have the
    /// full one.
    pub fn table(&self) -> Result<Vec<i64>> {
        let edition = self.job.edition;
        let kept: List<i64> = self.input(1, self.job.layers * edition.columns())?;
        Ok(kept.list().chunks_exact(edition.columns()).flat_map(|row| edition.row(row)).collect())
    }

    /// Each layer's window.
    pub fn windows(&self) -> Result<Vec<Window>> {
        Ok(self.table()?.chunks_exact(COLUMNS).map(Window::of_row).collect())
    }

    /// The layers' arguments, as [`Inputs::args`] has them.
    pub fn args(&self) -> Result<List<u32>> {
        self.input(2, self.job.layers * ARGUMENTS)
    }

    /// The sources' samples.
    pub fn samples(&self) -> Result<List<u32>> {
        self.input(3, self.job.samples)
    }

    fn input<T: Element>(&self, k: usize, length: usize) -> Result<List<T>> {
        let path = self.at(INPUTS[k]);
        let list = List::read(&path, length)?;
        match digest(list.bytes()) == self.job.digests[k] {
            true => Ok(list),
            false => Error::wrong(&path, "changed since the job was made; a job's inputs stay the same"),
        }
    }

    /// The bytes of a work buffer now. They are read and not mapped, since a worker may be writing them.
    fn work_bytes(&self, k: usize) -> Result<Vec<u8>> {
        let path = self.at(WORK[k % 2]);
        let bytes = fs::read(&path).at(&path)?;
        match bytes.len() == 16 * self.pixels() {
            true => Ok(bytes),
            false => Error::wrong(&path, format!("has {} bytes, not {}", bytes.len(), 16 * self.pixels())),
        }
    }

    /// What work buffer k mod 2 holds now.
    pub fn work_now(&self, k: usize) -> Result<Vec<u32>> {
        self.work_bytes(k).map(|bytes| words(&bytes))
    }

    /// Whether the finished picture is there and stored: a worker has come to its end, and the picture is as it left it.
    pub fn is_finished(&self) -> Result<bool> {
        Ok(self.checkpoint()?.position == self.total())
    }

    /// The finished picture; these very bytes are the ones that the checkpoint's digest is of.
    pub fn finished(&self) -> Result<Vec<u32>> {
        let (kept, picture) = self.borne_out()?;
        let total = self.total();
        if kept.position == total {
            return Ok(words(&picture));
        }
        let position = self.position()?;
        let why = if position == total { "its end is not stored yet (a worker does it)" } else { "not finished" };
        Error::wrong(&self.path, format!("{why}, {position} of {total} pixels"))
    }
}

fn words(bytes: &[u8]) -> Vec<u32> {
    bytes.chunks_exact(4).map(|b| u32::from_le_bytes([b[0], b[1], b[2], b[3]])).collect()
}

/// The library's own word on the inputs: a call without stores.
fn accepted(inputs: &Inputs) -> std::result::Result<(), tray::Error<tray::Refusal>> {
    // Sides that the library refuses are refused before a work buffer is looked at, and must not be made room for.
    let words = match (usize::try_from(inputs.width), usize::try_from(inputs.height)) {
        (Ok(width), Ok(height)) if width.max(height) <= tray::SIDE as usize => 4 * width * height,
        _ => 0,
    };
    let (mut work0, mut work1) = (vec![0; words], vec![0; words]);
    let memory = Memory { work0: &mut work0, work1: &mut work1, mark: &mut [0, 0] };
    tray::job(inputs, JobNumber(0), 0, memory).map(drop)
}

/// The files of a new job; work buffers and position begin at 0. The mark has its number before the folder has its name, so that
/// the order of the two counts for nothing here.
fn fill(part: &Path, inputs: &Inputs, number: JobNumber, names: &[String]) -> Result<()> {
    let Inputs { dst, table, args, samples, .. } = *inputs;
    let names = names.join("\n");
    let lists = [bytes(dst), bytes(table), bytes(args), bytes(samples)];
    let job = Description::new(inputs, number, lists.map(digest));
    let write = |name: &str, bytes: &[u8]| storage::write(&part.join(name), bytes).at(&part.join(name));
    for (name, list) in INPUTS.iter().zip(lists) {
        write(name, list)?;
    }
    write(NAMES, names.as_bytes())?;
    write(MARK, bytes(&[0, number.0]))?;
    write(LOCK, b"")?;
    write(JOB, job.text().as_bytes())?;
    for name in WORK {
        let path = part.join(name);
        let room = || {
            let file = OpenOptions::new().read(true).write(true).create_new(true).open(&path)?;
            system::allocate(&file, 16 * (job.width * job.height) as u64)?;
            file.sync_all()
        };
        room().at(&path)?;
    }
    storage::sync_folder(part).at(part)
}

/// An error about a file of the folder under construction, said of the folder that it would have become.
fn renamed(error: Error, part: &Path, path: &Path) -> Error {
    match error {
        Error::System(file, error) => match file.strip_prefix(part) {
            Ok(name) => Error::System(path.join(name), error),
            Err(_) => Error::System(file, error),
        },
        other => other,
    }
}
