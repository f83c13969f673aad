//! What a window spares: a pixel off it needs no operator, and still its five stores.

use crate::inputs::Pair;
use crate::ratios::{Ours, Work};
use crate::turns::{Side, median, turns};
use tray::Operator::{self, Displace, Luminize, Over, Rmse, SoftLight, Src};
use tray::{Layer, Stack, Window};

/// From the cheapest to the dearest, and a map.
const OPERATORS: [Operator; 6] = [Src, Over, Rmse, SoftLight, Luminize, Displace];

/// The full window; one in the middle, of a quarter of each side, which holds a sixteenth of the pixels; an empty one.
fn windows(side: i64) -> [Window; 3] {
    let middle = Window { left: side * 3 / 8, top: side * 3 / 8, width: side / 4, height: side / 4 };
    [Window::FULL, middle, Window { width: 0, height: 0, ..Window::FULL }]
}

/// The picture has the full window's pixels on the window, and the destination's off it.
fn cuts(pair: &Pair, window: Window, full: &[u32], picture: &[u32]) -> bool {
    let on = |first: i64, count: i64, at: usize| (first..first + count).contains(&(at as i64));
    let right = |j: usize| {
        let held = on(window.left, window.width, j % pair.side) && on(window.top, window.height, j / pair.side);
        let expected: &[u32] = if held { full } else { &pair.dst };
        picture[4 * j..][..4] == expected[4 * j..][..4]
    };
    (0..pair.pixels()).all(right)
}

/// A job's time under the full window, in seconds, and the times under the others as parts of it: from its begin, or from
/// its layer's phase on, with what phase 0 leaves in memory. As for the other ratios, each is the median over the turns.
fn measured(pixels: usize, jobs: &mut [Ours; 3], from: u64) -> [f64; 3] {
    let sides = jobs.each_mut().map(|job| {
        job.from = from;
        Some(job as &mut dyn Side)
    });
    let turns = turns(pixels, sides);
    std::array::from_fn(|k| median(turns.iter().map(|turn| if k == 0 { turn[0] } else { turn[k] / turn[0] })))
}

/// One line: a layer alone, and the job of this one layer.
fn line(pair: &Pair, works: &mut [Work; 3], operator: Operator) {
    let windows = windows(pair.side as i64);
    let stack = |window| Stack::new(&[Layer { window, ..Layer::new(operator, pair.source()) }]);
    let mut windowed = windows.into_iter();
    let mut jobs = works.each_mut().map(|work| {
        let window = windowed.next().expect("a window for each");
        Ours { pair, stack: stack(window), work, from: 0 }
    });
    jobs.iter_mut().for_each(Side::run);
    let full = jobs[0].work.picture();
    let right = jobs.iter().zip(windows).all(|(job, window)| cuts(pair, window, full, job.work.picture()));
    assert!(right, "{operator}: another result");
    let job = measured(pair.pixels(), &mut jobs, 0);
    let layer = measured(pair.pixels(), &mut jobs, pair.pixels() as u64);
    let cell = |k: usize, of: f64| format!(" {:.2}, {:.2} |", layer[k] * of, job[k] * of);
    println!("| {operator} |{}{}{}", cell(0, 1e9 / pair.pixels() as f64), cell(1, 1.0), cell(2, 1.0));
}

/// A line for each operator, on pictures of one side.
pub fn table(side: usize) {
    let pair = Pair::new(side);
    let mut works = [(); 3].map(|()| Work::new(&pair));
    println!("\n| {side}²: a layer, the job of this layer | full, ns a pixel | a sixteenth / full | empty / full |");
    println!("|---|---:|---:|---:|");
    OPERATORS.iter().for_each(|operator| line(&pair, &mut works, *operator));
}
