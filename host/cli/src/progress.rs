//! The progress bar of `tray run`: as wide as the terminal leaves it, percent, pixels in a second, and the time left.

use anyhow::Result;
use indicatif::{HumanDuration, ProgressBar, ProgressState, ProgressStyle};
use std::fmt::Write;
use std::time::Duration;
use tray_cli::say::complain;

/// A terminal that is narrower than the text cuts it instead of going on in the next line, which would not be wiped out.
const LINE: &str = "\x1b[?7l{wide_bar} {percent:>3}% {rate} {left}\x1b[?7h";

/// The bar of a job that begins at `mark`; the rate is that of this worker.
pub fn bar(quiet: bool, mark: u64, total: u64) -> Result<ProgressBar> {
    if quiet {
        return Ok(ProgressBar::hidden());
    }
    let per_second =
        move |state: &ProgressState| state.pos().saturating_sub(mark) as f64 / state.elapsed().as_secs_f64().max(0.001);
    let rate = move |state: &ProgressState, out: &mut dyn Write| {
        let _ = write!(out, "{} pixels/s", short(per_second(state)));
    };
    let left = move |state: &ProgressState, out: &mut dyn Write| {
        let _ = out.write_str(&time(total.saturating_sub(state.pos()), per_second(state)));
    };
    let style = ProgressStyle::with_template(LINE)?.with_key("rate", rate).with_key("left", left);
    Ok(ProgressBar::new(total).with_style(style).with_position(mark))
}

/// Leaves the bar as it is, and what follows in a line of its own.
pub fn leave(bar: &ProgressBar) {
    bar.abandon();
    if !bar.is_hidden() {
        complain("");
    }
}

/// A number of at most three figures before its point, and a letter for the thousands.
fn short(n: f64) -> String {
    match n {
        n if n < 999.5 => format!("{n:.0}"),
        n if n < 999.95e3 => format!("{:.1} k", n / 1e3),
        n if n < 999.95e6 => format!("{:.1} M", n / 1e6),
        n => format!("{:.1} G", n / 1e9),
    }
}

/// The time for some pixels at a rate; nothing as long as there is no rate.
fn time(pixels: u64, per_second: f64) -> String {
    if per_second < 1.0 {
        return String::new();
    }
    format!("{:#} left", HumanDuration(Duration::from_secs_f64((pixels as f64 / per_second).ceil())))
}

#[cfg(test)]
mod tests {
    use super::*;

    #[test]
    fn rates_and_times() {
        let rates = [0.0, 999.4, 999.6, 12_345.0, 999_949.0, 999_951.0, 12_345_678.0, 2e9].map(short);
        assert_eq!(rates, ["0", "999", "1.0 k", "12.3 k", "999.9 k", "1.0 M", "12.3 M", "2.0 G"]);
        assert_eq!([time(5, 0.0), time(25, 10.0), time(0, 10.0)], ["", "3s left", "0s left"]);
    }
}
