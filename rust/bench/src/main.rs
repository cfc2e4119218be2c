//! Times the proved code beside plain Rust twins on the same inputs, in one run. The figures are
//! for the change log; no test depends on them.

mod ask;
mod buffers;
mod classes;
mod generated;
mod hard_classes;
mod judge;
mod parts;
mod peers;
mod plain;
mod plain_ask;
mod plain_file;
mod plain_free;
mod plain_judge;
mod plain_memo;
mod plain_notes;
mod plain_places;
mod plain_prices;
mod plain_probe;
mod plain_probes;
mod plain_relaxed;
mod plain_states;
mod plain_tuning;
mod plain_walk;
mod plain_week;
mod read;
mod table;
mod timing;
mod walk;
mod week;
mod work;

use std::process::ExitCode;

const USAGE: &str = "usage: cargo run --release -p bench -- read|judge|week|ask|parts|work|peers";

fn main() -> ExitCode {
    match std::env::args().nth(1).as_deref() {
        Some("read") => read::run(),
        Some("judge") => judge::run(),
        Some("week") => week::run(),
        Some("ask") => ask::run(),
        Some("parts") => parts::run(),
        Some("work") => work::run(),
        Some("peers") => return peers::run(),
        Some("answer") => return peers::answer(),
        _ => {
            eprintln!("{USAGE}");
            return ExitCode::FAILURE;
        }
    }
    ExitCode::SUCCESS
}
