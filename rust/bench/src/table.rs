//! The printed table, with what a reader needs to judge its figures.

use crate::timing::{Times, CALLS, ROUNDS};

/// Prints the machine, the build and the rounds, then the heading of the columns.
pub fn heading() {
    preamble(&format!("{ROUNDS} rounds of {CALLS} calls"));
    println!(
        "{:<34} {:>6} {:>11} {:>11} {:>13}",
        "case", "words", "proved ns", "plain ns", "proved/plain"
    );
}

/// Prints the machine, the build and the rounds.
pub fn preamble(rounds: &str) {
    told(&format!("medians, the ratios' too, of {rounds} in turns"));
}

/// Prints the machine, the build and what the figures are.
pub fn told(figures: &str) {
    let build = if cfg!(debug_assertions) {
        "with debug assertions, not for comparison"
    } else {
        "release"
    };
    println!("machine: {}", machine());
    println!("build: {build}; {figures}");
    println!();
}

/// Prints one case.
pub fn row(case: &str, words: usize, times: &Times) {
    let (proved, plain) = times.medians();
    let ratio = times.ratio();
    println!("{case:<34} {words:>6} {proved:>11.0} {plain:>11.0} {ratio:>13.2}");
}

/// Prints the headings of other columns, each above its figures.
pub fn titles(titles: &[&str]) {
    print!("{:<24}", "case");
    titles.iter().for_each(|title| print!(" {title:>13}"));
    println!();
}

/// Prints one case in those columns, each figure with so many decimals.
pub fn figures(case: &str, figures: &[(f64, usize)]) {
    print!("{case:<24}");
    figures
        .iter()
        .for_each(|(figure, decimals)| print!(" {figure:>13.decimals$}"));
    println!();
}

/// The architecture, and how many threads run at once, 0 where that is not known.
fn machine() -> String {
    let threads = std::thread::available_parallelism().map_or(0, |threads| threads.get());
    format!("{}, {threads} threads", std::env::consts::ARCH)
}
