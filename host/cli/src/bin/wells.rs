//! Draws the pictures of the demonstration: an empty tray of 96 square wells, the wells' own pictures, each of a soil extract
//! whose blue grows with its phosphate, and six files of sixteen layers that lay them, two columns each. A well's picture has the
//! well's rim too, stained; its layer has a window, which is the well's floor, so that the rim of the tray itself stays.

use anyhow::{Context, Result};
use clap::Parser;
use std::fs::{self, File};
use std::io::Write;
use std::path::{Path, PathBuf};
use std::process::ExitCode;
use tray_cli::exit::{self, Exit};
use tray_cli::say::say;
use tray_cli::{pfm, png_file};

#[derive(Parser)]
#[command(
    name = "wells",
    version,
    about = "Draws the pictures of the demonstration: tray.png, an empty 96-well tray; well_A01.png to well_H12.png (some rows are .pfm), a soil extract and a stained rim each; layers_1.txt to layers_6.txt, which lay them for `tray make --layers`, each within its well's window"
)]
struct Wells {
    /// The folder to draw into; it is made if it is not there
    folder: PathBuf,
}

const COLUMNS: usize = 12;
const ROWS: usize = 8;
const PITCH: usize = 96;
const MARGIN: usize = 48;
/// A side of a well with its rim, which is that of its picture, and of its floor, which is that of its window.
const WELL: usize = 84;
const FLOOR: usize = 76;

/// The operator of each row. Those in capitals have their source as a PFM: no alpha, the rim mixed with white.
const OPERATORS: [&str; ROWS] =
    ["over", "MULTIPLY", "atop", "color-burn", "DARKEN", "linear-burn", "DARKEN-INTENSITY", "over"];

/// A number from 0 to 1 that looks random and is always the same.
fn noise(x: usize, y: usize, seed: usize) -> f32 {
    let mut n = (x as u64) << 40 ^ (y as u64) << 20 ^ seed as u64 ^ 0x9e37_79b9_7f4a_7c15;
    for _ in 0..3 {
        n = (n ^ n >> 31).wrapping_mul(0xbf58_476d_1ce4_e5b9);
    }
    (n >> 40) as f32 / (1 << 24) as f32
}

/// How much of a disc with this radius covers a pixel whose middle lies this far from its middle.
fn cover(distance: f32, radius: f32) -> f32 {
    (radius + 0.5 - distance).clamp(0.0, 1.0)
}

/// Whether a pixel this far right and down from the middle of a square with this side lies in it.
fn inside((right, down): (f32, f32), side: usize) -> bool {
    right.abs().max(down.abs()) < side as f32 / 2.0
}

/// From the middle of a well to the middle of a pixel of the tray, right and down, and the well's column; none in the margin.
fn well(x: usize, y: usize) -> Option<((f32, f32), usize)> {
    let (x, y) = (x.checked_sub(MARGIN)?, y.checked_sub(MARGIN)?);
    let from = |n: usize| (n % PITCH) as f32 + 0.5 - PITCH as f32 / 2.0;
    (x < COLUMNS * PITCH && y < ROWS * PITCH).then(|| ((from(x), from(y)), x / PITCH))
}

/// The empty tray: light plastic with a rim and a floor for each well. The rims have a dark and a light side; those of the known
/// dilutions are orange.
fn plate(x: usize, y: usize, width: usize, height: usize) -> [f32; 3] {
    let slope = 0.03 * (x as f32 / width as f32 + y as f32 / height as f32);
    let edge = x.min(y).min(width - 1 - x).min(height - 1 - y) as f32;
    let light = 0.86 - slope - 0.25 * cover(edge, 3.0);
    let gray = |light: f32| [light, light, light + 0.01];
    match well(x, y) {
        Some((from, _)) if inside(from, FLOOR) => gray(light + 0.1),
        Some((from, column)) if inside(from, WELL) => {
            let shaded = light + 0.1 * (from.0 + from.1).signum() - 0.16;
            let colour = if column == COLUMNS - 1 { [1.0, 0.62, 0.2] } else { [1.0; 3] };
            colour.map(|part| part * shaded)
        }
        _ => gray(light),
    }
}

/// Phosphate from 0 to 1: a field's slope with some scatter; the last column has the known dilutions.
fn phosphate(column: usize, row: usize) -> f32 {
    if column == COLUMNS - 1 {
        return row as f32 / (ROWS - 1) as f32;
    }
    let slope = (column as f32 / 10.0 * 1.7).sin().abs() * 0.55 + row as f32 * 0.03;
    (slope + 0.35 * (noise(column, row, 2) - 0.5)).clamp(0.02, 0.95)
}

/// A well's pixel: colour, and how much of it is covered. The rim is stained, darker than the extract.
fn extract(x: usize, y: usize, column: usize, row: usize) -> ([f32; 3], f32) {
    let from = (x as f32 + 0.5 - WELL as f32 / 2.0, y as f32 + 0.5 - WELL as f32 / 2.0);
    let far = (from.0.powi(4) + from.1.powi(4)).sqrt().sqrt();
    let depth = phosphate(column, row) * (1.0 - 0.25 * (2.0 * far / FLOOR as f32).powi(4).min(1.0));
    let light = 1.0 + 0.004 * (noise(x, y, 96 + row * COLUMNS + column) - 0.5);
    let glint = 0.35 * cover((from.0 + 16.0).hypot(from.1 + 18.0), 5.0);
    let absorbed = [2.6, 1.15, 0.28].map(|k: f32| 0.97 * light * (-k * depth).exp());
    match inside(from, FLOOR) {
        true => (absorbed.map(|v| (v + glint * (1.0 - v)).clamp(0.0, 1.0)), 1.0),
        false => (absorbed.map(|v| 0.4 * v), 0.8),
    }
}

fn byte(v: f32) -> u8 {
    (v * 255.0).round() as u8
}

fn pixels(width: usize, height: usize) -> impl Iterator<Item = (usize, usize)> {
    (0..height).flat_map(move |y| (0..width).map(move |x| (x, y)))
}

fn draw_well(folder: &Path, column: usize, row: usize) -> Result<String> {
    let name = format!("well_{}{:02}", (b'A' + row as u8) as char, column + 1);
    let drawn = pixels(WELL, WELL).map(|(x, y)| extract(x, y, column, row));
    if OPERATORS[row].chars().all(|c| !c.is_ascii_lowercase()) {
        let name = name + ".pfm";
        let over_white = |(colour, cover): ([f32; 3], f32)| colour.map(|v| (cover * v + (1.0 - cover)).to_bits());
        let words: Vec<u32> = drawn.flat_map(over_white).collect();
        pfm::write(create(folder, &name)?, WELL, WELL, 3, &words)?;
        return Ok(name);
    }
    let name = name + ".png";
    let bytes: Vec<u8> = drawn.flat_map(|([r, g, b], a)| [r, g, b, a].map(byte)).collect();
    png_file::write(create(folder, &name)?, WELL, WELL, 4, png_file::Depth::Eight, &bytes)?;
    Ok(name)
}

fn create(folder: &Path, name: &str) -> Result<File> {
    let path = folder.join(name);
    File::create(&path).with_context(|| path.display().to_string())
}

fn draw(words: Wells) -> Result<Exit> {
    let folder = &words.folder;
    fs::create_dir_all(folder).with_context(|| folder.display().to_string())?;
    let (width, height) = (COLUMNS * PITCH + 2 * MARGIN, ROWS * PITCH + 2 * MARGIN);
    let tray: Vec<u8> = pixels(width, height).flat_map(|(x, y)| plate(x, y, width, height).map(byte)).collect();
    png_file::write(create(folder, "tray.png")?, width, height, 3, png_file::Depth::Eight, &tray)?;
    for job in 0..COLUMNS / 2 {
        let mut lines = String::new();
        for (column, row) in (2 * job..2 * job + 2).flat_map(|column| (0..ROWS).map(move |row| (column, row))) {
            let name = draw_well(folder, column, row)?;
            // The upper left corner of what has this side in the middle of the well.
            let corner = |side: usize| [column, row].map(|n| MARGIN + n * PITCH + (PITCH - side) / 2);
            let ([right, down], [left, top]) = (corner(WELL), corner(FLOOR));
            let operator = OPERATORS[row].to_ascii_lowercase();
            lines += &format!("{operator} {name} at={right},{down} window={left},{top},{FLOOR},{FLOOR}\n");
        }
        create(folder, &format!("layers_{}.txt", job + 1))?.write_all(lines.as_bytes())?;
    }
    let (wells, lists) = (COLUMNS * ROWS, COLUMNS / 2);
    say(format!("{}: the empty tray, {wells} wells, {lists} lists of layers", folder.display()))?;
    Ok(Exit::Done)
}

fn main() -> ExitCode {
    exit::command("wells", draw)
}
