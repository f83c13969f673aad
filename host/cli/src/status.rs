//! `tray status`.

use anyhow::Result;
use clap::Args;
use std::path::PathBuf;
use tray::Window;
use tray_cli::exit::Exit;
use tray_cli::say::{count, say, sides};
use tray_folder::Folder;

#[derive(Args)]
pub struct Status {
    /// The job's folder
    job: PathBuf,
    /// One line of JSON: folder, width, height, channels, layers, mark, total, finished, worker; and phase (0 is the destination's, the last one a finished job's), layer (from 0, null in phase 0), pixels (written in this phase), windows (of each layer left, top, width and height; 0, 0, 2048, 2048 is the full one), job_number (a text of sixteen hexadecimal digits; zeros for a job from before there were any)
    #[arg(long)]
    json: bool,
}

impl Status {
    pub fn print(self) -> Result<Exit> {
        let folder = Folder::open(&self.job)?;
        // A worker may go on meanwhile: what is finished stays so, and the mark only rises.
        let (finished, mark) = (folder.is_finished()?, folder.position()?);
        let state = State { mark, finished, worker: folder.has_worker()? };
        say(if self.json { json(&folder, &state)? } else { words(&folder, &state)? + &windows(&folder)? })?;
        Ok(Exit::Done)
    }
}

struct State {
    mark: u64,
    /// The last picture is there and stored, which it is not yet where a worker was killed at the job's end.
    finished: bool,
    worker: bool,
}

/// What a person reads, in two lines.
fn words(folder: &Folder, state: &State) -> Result<String> {
    let State { mark, worker, .. } = *state;
    let total = folder.total();
    let percent = if total == 0 { 100.0 } else { 100.0 * mark as f64 / total as f64 };
    Ok(format!(
        "{}: {}, {}, {}; job number {}; {}\nmark {mark} of {total} ({percent:.1} %): {}",
        folder.path().display(),
        sides(folder.width(), folder.height()),
        count(folder.channels() as u64, "channel"),
        count(folder.layers() as u64, "layer"),
        folder.number(),
        if worker { "a worker has it" } else { "no worker" },
        place(folder, state)?
    ))
}

/// Where a mark lies, in words.
fn place(folder: &Folder, state: &State) -> Result<String> {
    let (phase, pixels) = folder.phase(state.mark);
    let of = count(folder.pixels() as u64, "pixel");
    Ok(match phase {
        _ if state.finished => "finished".to_string(),
        _ if state.mark == folder.total() => "written, and not stored yet (`tray run` does it)".to_string(),
        0 => format!("the destination, {pixels} of {of}"),
        k => format!("{}, {pixels} of {of}", named(folder, k as usize - 1)?),
    })
}

/// A layer by its number, and by its line of text.
fn named(folder: &Folder, layer: usize) -> Result<String> {
    let names = folder.names()?;
    Ok(format!("layer {layer} ({})", names.get(layer).map_or("", String::as_str)))
}

/// A line for each layer whose window is not the full one.
fn windows(folder: &Folder) -> Result<String> {
    let cut = folder.windows()?.into_iter().enumerate().filter(|(_, window)| *window != Window::FULL);
    cut.map(|(layer, window)| Ok(format!("\n{}: window={window}", named(folder, layer)?))).collect()
}

/// What a program reads. A finished job has its last phase whole.
fn json(folder: &Folder, state: &State) -> Result<String> {
    let State { mark, finished, worker } = *state;
    let (width, height, channels, layers) = (folder.width(), folder.height(), folder.channels(), folder.layers());
    let total = folder.total();
    let (phase, pixels) = match folder.phase(mark) {
        _ if mark == total => (layers as u64, folder.pixels() as u64),
        place => place,
    };
    let layer = phase.checked_sub(1).map_or("null".to_string(), |layer| layer.to_string());
    let path = quoted(&folder.path().to_string_lossy());
    let windows: Vec<String> = folder.windows()?.iter().map(|window| format!("[{window}]")).collect();
    let (windows, number) = (windows.join(","), folder.number());
    Ok(format!(
        "{{\"folder\":{path},\"width\":{width},\"height\":{height},\"channels\":{channels},\"layers\":{layers},\
        \"mark\":{mark},\"total\":{total},\"finished\":{finished},\"worker\":{worker},\
        \"phase\":{phase},\"layer\":{layer},\"pixels\":{pixels},\"windows\":[{windows}],\"job_number\":\"{number}\"}}"
    ))
}

/// A text as JSON has it.
fn quoted(text: &str) -> String {
    let escaped = |c: char| match c {
        '"' | '\\' => format!("\\{c}"),
        c if c < ' ' => format!("\\u{:04x}", c as u32),
        c => c.to_string(),
    };
    format!("\"{}\"", text.chars().map(escaped).collect::<String>())
}

#[cfg(test)]
mod tests {
    use super::*;

    #[test]
    fn texts_are_quoted() {
        assert_eq!(quoted("a\"b\\c\n\u{1}é"), "\"a\\\"b\\\\c\\u000a\\u0001é\"");
    }
}
