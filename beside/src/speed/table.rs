//! The figures as a table.

use std::time::Duration;

use super::measure::Figures;
use super::script::{Kind, Script};
use crate::output::line;

pub fn print_head(rounds: usize, clock: Duration) {
    let clock = clock.as_nanos();
    line(format_args!("Nanoseconds: the median of {rounds} rounds, each round the mean of many sessions. The sides take turns."));
    line(format_args!(
        "open to delivery: neighbouring calls of one kind timed together, less {clock} ns for the clock; figures below that are rough."
    ));
    line("read to done: plain steps, by their turn. delivery: together with its step, whatever the turn.");
    line("session: opening, all calls, and giving the memory back, without the clock in between.");
    line("At each Waiting the lowest read in flight is delivered.");
    line("rust: a delivery is its pair of calls.");
    line("port: its library, on a state that is lent again from scan to scan.");
}

/// The figures of each side, and those of all but the first over those of the first.
pub fn print_job(name: &str, script: &Script, sides: &[(&str, Figures)]) {
    line(format_args!("\n{name}"));
    print_line("", Kind::ALL.map(|kind| kind.name().to_owned()));
    print_line("times", Kind::ALL.map(|kind| script.count(kind).to_string()));
    for (side, figures) in sides {
        print_line(side, figures.map(|figure| format!("{figure:.0}")));
    }
    let (first, base) = &sides[0];
    for (side, figures) in &sides[1..] {
        let ratios = std::array::from_fn(|kind| format!("{:.2}", figures[kind] / base[kind]));
        print_line(&format!("{side} / {first}"), ratios);
    }
}

fn print_line(name: &str, cells: [String; Kind::ALL.len()]) {
    line(format_args!("  {name:<12}{}", cells.map(|cell| format!("{cell:>10}")).concat()));
}
