//! What is printed of a run.

use crate::drive::Driven;

/// A run in a line.
pub fn line(driven: &Driven) -> String {
    format!(
        "{:>8.0} turns/s, 50% {:>5.0} µs, 99% {:>5.0} µs, worst {:>5.1} ms",
        driven.turns_a_second(),
        driven.microseconds(500),
        driven.microseconds(990),
        driven.microseconds(1_000) / 1_000.0
    )
}

/// A run in a few lines, with the replies by their kind.
pub fn whole(driven: &Driven) -> String {
    format!(
        "{} turns of {} connections in {:.2} s\n{}\nthe loader used {:.2} cores, the whole machine {:.2}; load {:.2}\n{}",
        driven.turns(),
        driven.connections,
        driven.seconds,
        line(driven).trim_start(),
        driven.loader,
        driven.machine,
        driven.load,
        driven.replies
    )
}

/// A run in a line for programs, as an object of JSON.
pub fn figures(driven: &Driven) -> String {
    format!(
        r#"{{"connections": {}, "turns": {}, "seconds": {:.3}, "turns_a_second": {:.1}, "p50_microseconds": {:.1}, "p99_microseconds": {:.1}, "worst_microseconds": {:.1}}}"#,
        driven.connections,
        driven.turns(),
        driven.seconds,
        driven.turns_a_second(),
        driven.microseconds(500),
        driven.microseconds(990),
        driven.microseconds(1_000)
    )
}
