//! A worker: holds a job's lock and its mapped lists, makes its calls, and sees to it that the storage always has a checkpoint
//! from which the job can be taken up.

use crate::checkpoint::{place, Checkpoint, Pictures};
use crate::error::{At, Error, Result};
use crate::folder::{Folder, Lock, CHECKPOINT, WORK};
use crate::list::List;
use crate::{held, storage, system};
use std::fs::{self, OpenOptions};
use tray::{Fault, Inputs, JobNumber, Memory, Progress, Refusal};

/// How much of a job a loss of power takes back.
#[derive(Clone, Copy, Debug, PartialEq, Eq)]
pub enum Durable {
    /// At most one phase: each picture is stored before the next one is begun.
    Phase,
    /// All that was done, if the worker has not come to its end: nothing is stored before.
    End,
}

/// Where a worker has taken a job up.
#[derive(Clone, Copy, Debug, PartialEq, Eq)]
pub enum TakenUp {
    /// At the mark that it found.
    Mark,
    /// At the checkpoint and not at the mark, in another boot, on another mount or in a copy; or at the beginning, where there
    /// was none whose pictures are there.
    Checkpoint(u64),
}

/// A worker of a job. What it has done outlives a kill at any moment.
pub struct Worker {
    folder: Folder,
    durable: Durable,
    dst: List<u32>,
    table: Vec<i64>,
    args: List<u32>,
    samples: List<u32>,
    work: [List<u32>; 2],
    mark: List<u64>,
    /// What the storage has.
    checkpoint: Checkpoint,
    /// What the folder was when it was taken up.
    here: String,
    taken_up: TakenUp,
    _lock: Lock,
}

impl Worker {
    /// Takes a job up. Its mark must be its own and its inputs those that it was made with, and the storage must have room for its
    /// work buffers.
    pub fn new(folder: &Folder, lock: Lock, durable: Durable) -> Result<Self> {
        // It may have been made anew while this worker waited.
        let folder = Folder::open(folder.path())?;
        if !folder.is_locked_by(&lock) {
            return Err(Error::Busy(folder.path().to_path_buf()));
        }
        // Before anything is written; in the very memory that the calls are lent.
        let mark = folder.mark()?;
        folder.is_own(JobNumber(mark.list()[1]))?;
        let here = folder.here()?;
        let (dst, table, args, samples) = (folder.dst()?, folder.table()?, folder.args()?, folder.samples()?);
        let work = |k: usize| {
            let path = folder.at(WORK[k]);
            let list = List::write(&path, 4 * folder.pixels())?;
            // A copy may have holes where the job that it was made of had none.
            let file = OpenOptions::new().read(true).write(true).open(&path).at(&path)?;
            system::allocate(&file, 16 * folder.pixels() as u64).at(&path)?;
            Ok(list)
        };
        let work = [work(0)?, work(1)?];
        // A worker that was killed may have left a checkpoint whose name the storage has not yet.
        storage::sync_folder(folder.path()).at(folder.path())?;
        let checkpoint = folder.checkpoint()?;
        let taken_up = TakenUp::Mark;
        let mut worker =
            Worker { folder, durable, dst, table, args, samples, work, mark, checkpoint, here, taken_up, _lock: lock };
        worker.take_up()?;
        Ok(worker)
    }

    /// Sees where the job stands. The position of a mark that cannot be trusted is set to the checkpoint before the mark is called
    /// trusted again; and the pictures of that checkpoint are stored, which in a copy they may not be. The job number is never
    /// written.
    fn take_up(&mut self) -> Result<()> {
        let path = self.folder.path();
        if held::trusted(path, &self.here) && !self.belied()? {
            return Ok(());
        }
        let Checkpoint { position, .. } = self.checkpoint;
        if self.mark() != position {
            self.taken_up = TakenUp::Checkpoint(position);
        }
        self.mark.list_mut()[0] = position;
        if position != 0 {
            self.store()?;
        }
        storage::replace(self.folder.path(), held::NAME, &self.here).at(&self.folder.at(held::NAME))
    }

    /// Whether the checkpoint belies the mark: a phase leaves the pictures of a checkpoint within it as they are, so that
    /// one in the mark's phase, not beyond the mark, holds, or the memory is not what the last worker left.
    fn belied(&self) -> Result<bool> {
        let mark = self.folder.mapped_mark()?;
        let kept = self.folder.kept()?;
        let same = self.folder.phase(kept.position).0 == self.folder.phase(mark).0;
        Ok(same && kept.position <= mark && kept != self.checkpoint)
    }

    /// Where it has taken the job up.
    pub fn taken_up(&self) -> TakenUp {
        self.taken_up
    }

    /// The job's position, as its mark has it.
    pub fn mark(&self) -> u64 {
        self.mark.list()[0]
    }

    /// The number in its mark.
    fn number(&self) -> JobNumber {
        JobNumber(self.mark.list()[1])
    }

    /// One call of at most `allowance` stores, within one phase.
    pub fn call(&mut self, allowance: u64) -> Result<Progress> {
        let (phase, written) = self.folder.phase(self.mark());
        let pixels = self.folder.pixels() as u64;
        if self.mark() < self.folder.total() {
            self.keep_a_checkpoint(phase * pixels)?;
        }
        let inputs = Inputs {
            width: self.folder.width() as i64,
            height: self.folder.height() as i64,
            channels: self.folder.channels() as i64,
            dst: self.dst.list(),
            layers: self.folder.layers() as i64,
            table: &self.table,
            args: self.args.list(),
            samples: self.samples.list(),
        };
        let [work0, work1] = &mut self.work;
        let memory = Memory { work0: work0.list_mut(), work1: work1.list_mut(), mark: self.mark.list_mut() };
        let called = tray::job(&inputs, self.folder.number(), allowance.min(5 * (pixels - written)), memory);
        called.map_err(|error| self.refused(error))
    }

    /// The library's refusal. Where the mark is another job's, both numbers are told.
    fn refused(&self, error: tray::Error<Refusal>) -> Error {
        match (error, self.folder.is_own(self.number())) {
            (tray::Error::Refused(Refusal { fault: Fault::JobNumber, .. }), Err(anothers)) => anothers,
            _ => Error::Refused(self.folder.path().to_path_buf(), error),
        }
    }

    /// Before a phase writes: a checkpoint within it, not beyond the mark, stays true while it is written, since the phase
    /// leaves the picture beneath and what it has written as they are. Any other is renewed; where it is not, its digest no
    /// longer fits when the phase has written over its picture.
    fn keep_a_checkpoint(&mut self, phase_start: u64) -> Result<()> {
        let Checkpoint { position, .. } = self.checkpoint;
        match self.durable {
            Durable::Phase if position < phase_start || self.mark() < position => self.store(),
            _ => Ok(()),
        }
    }

    /// Stores the pictures that the position rests on, and then the position with their digest; of a folder that is still the one
    /// that was taken up, with the inputs that it had then, and of its own mark.
    fn store(&mut self) -> Result<()> {
        self.folder.is_own(self.number())?;
        if self.folder.here()? != self.here {
            return Error::wrong(self.folder.path(), "replaced, or its inputs changed, while a worker had it");
        }
        let (beneath, writing, bytes) = place(self.mark(), self.folder.pixels() as u64);
        let beneath = beneath.map(|k| &self.work[k]);
        let writing = &self.work[writing];
        // The storage may also have failed to take an earlier picture, which these were made of: both are asked for.
        let synced = self.work.iter().try_for_each(List::sync);
        if synced.is_err() {
            // Pages that the storage did not take may be gone from memory too: from here on the checkpoint alone counts.
            self.mark.list_mut()[0] = self.checkpoint.position;
            let _ = fs::remove_file(self.folder.at(held::NAME));
            return synced;
        }
        let written = &writing.bytes()[..bytes];
        let job = &self.folder.description();
        let pictures = Pictures { job, beneath: beneath.map_or(&[], List::bytes), written };
        let checkpoint = Checkpoint::new(self.mark(), &pictures);
        storage::replace(self.folder.path(), CHECKPOINT, &checkpoint.text()).at(&self.folder.at(CHECKPOINT))?;
        self.checkpoint = checkpoint;
        Ok(())
    }

    /// Ends the worker's part: what it has done is stored when this returns.
    pub fn stop(mut self) -> Result<()> {
        if self.checkpoint.position == self.mark() {
            return Ok(());
        }
        self.store()
    }
}
