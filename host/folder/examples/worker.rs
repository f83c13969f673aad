//! A job folder without pictures and without the command `tray`, for tests: a job of random inputs, its workers, its state.
//!
//!     worker make JOB WIDTH HEIGHT LAYERS SEED
//!     worker run JOB [--quiet] [--allowance STORES] [--durable phase|end]
//!     worker status JOB
//!
//! `run` ends with 0 when the job is finished, 3 when it is not, 5 when another worker has it, 6 when the storage failed.

use std::error::Error;
use std::path::Path;
use std::process::ExitCode;
use tray::{Inputs, Layer, Source, Stack};
use tray_folder::{Durable, Folder, TakenUp, Worker};

/// Operators of which each, on most pixels, shows the pixel beneath.
const OPERATORS: [&str; 6] = ["over", "plus", "xor", "screen", "difference", "atop"];

/// Numbers that look random and are the same for the same seed.
fn samples(count: usize, mut seed: u64) -> Vec<u32> {
    let mut next = || {
        seed = seed.wrapping_mul(6364136223846793005).wrapping_add(1442695040888963407);
        ((seed >> 40) as f32 / (1 << 24) as f32).to_bits()
    };
    (0..count).map(|_| next()).collect()
}

fn make(path: &Path, numbers: &[u64]) -> Result<(), Box<dyn Error>> {
    let (width, height, layers, seed) = match *numbers {
        [width, height, layers, seed] => (width as i64, height as i64, layers as usize, seed),
        _ => return Err("make JOB WIDTH HEIGHT LAYERS SEED".into()),
    };
    let words = 4 * (width * height) as usize;
    let source = Source { first: 0, width, height, channels: 4 };
    let name = |k: usize| OPERATORS[(k + seed as usize) % OPERATORS.len()];
    // Each layer begins one pixel further right and down, so that no two are alike.
    let layer = |k: usize| {
        let operator = tray::from_name(name(k).as_bytes()).expect("an operator");
        Layer { offset: (k as i64, k as i64), ..Layer::new(operator, source) }
    };
    let stack = Stack::new(&(0..layers).map(layer).collect::<Vec<_>>());
    let (dst, samples) = (samples(words, seed), samples(words, !seed));
    let Stack { table, args } = &stack;
    let inputs =
        Inputs { width, height, channels: 4, dst: &dst, layers: stack.layers(), table, args, samples: &samples };
    let names: Vec<String> = (0..layers).map(|k| name(k).to_string()).collect();
    Ok(Folder::create(path, &inputs, &names).map(drop)?)
}

fn run(path: &Path, mut words: impl Iterator<Item = String>) -> Result<u8, Box<dyn Error>> {
    let (mut left, mut durable) = (u64::MAX, Durable::Phase);
    while let Some(word) = words.next() {
        match (word.as_str(), if word == "--quiet" { None } else { words.next() }.as_deref()) {
            ("--quiet", None) => (),
            ("--allowance", Some(stores)) => left = stores.parse()?,
            ("--durable", Some("phase")) => durable = Durable::Phase,
            ("--durable", Some("end")) => durable = Durable::End,
            _ => return Err(format!("{word} is no word of run").into()),
        }
    }
    let folder = Folder::open(path)?;
    let lock = match folder.lock(false) {
        Err(error @ tray_folder::Error::Busy(_)) => {
            eprintln!("worker: {error}");
            return Ok(5);
        }
        locked => locked?,
    };
    tray_folder::on_storage_failure(&format!("worker: {}: the storage failed", path.display()), 6);
    let mut worker = Worker::new(&folder, lock, durable)?;
    if let TakenUp::Checkpoint(position) = worker.taken_up() {
        println!("taken up at {position}");
    }
    let mut stores = 0;
    let finished = loop {
        let progress = worker.call(left)?;
        stores += progress.stores;
        left -= progress.stores;
        if progress.finished || progress.stores == 0 || left == 0 {
            break progress.finished;
        }
    };
    let mark = worker.mark();
    worker.stop()?;
    let how = if finished { "finished" } else { "stopped" };
    println!("{}: {stores} stores, {how} at {mark} of {}", path.display(), folder.total());
    Ok(if finished { 0 } else { 3 })
}

fn act() -> Result<u8, Box<dyn Error>> {
    let mut words = std::env::args().skip(1);
    let (action, path) = (words.next().ok_or("make, run or status")?, words.next().ok_or("a job's folder")?);
    let path = Path::new(&path);
    match action.as_str() {
        "make" => make(path, &words.map(|word| word.parse()).collect::<Result<Vec<_>, _>>()?).map(|()| 0),
        "run" => run(path, words),
        "status" => {
            let folder = Folder::open(path)?;
            let finished = if folder.is_finished()? { ": finished" } else { "" };
            println!("mark {} of {}{finished}", folder.position()?, folder.total());
            Ok(0)
        }
        _ => Err(format!("{action} is neither make, run nor status").into()),
    }
}

fn main() -> ExitCode {
    let code = act().unwrap_or_else(|error| {
        eprintln!("worker: {error}");
        match error.downcast_ref::<tray_folder::Error>() {
            Some(error) if error.is_storage() => 6,
            _ => 1,
        }
    });
    code.into()
}
