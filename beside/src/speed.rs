//! How long opening, a call and a whole session take, on both sides with the same sessions in one run.

mod check;
mod jobs;
mod measure;
mod script;
mod table;

use std::time::{Duration, Instant};

pub use self::check::run as check;
use self::measure::Figures;
use self::script::{Kind, Script};
use crate::port::PortSide;
use crate::rust::RustSide;
use crate::side::Side;

const ROUNDS: usize = 41;

/// About how long a round of one side takes.
const ROUND: Duration = Duration::from_millis(4);

struct Timed {
    name: &'static str,
    script: fn(Vec<u8>) -> Result<Script, String>,
    round: fn(&Script, u32, Duration) -> Figures,
}

fn timed<S: Side>(name: &'static str) -> Timed {
    Timed { name, script: Script::new::<S>, round: measure::round::<S> }
}

/// The Rust first: the others are held against it.
fn sides() -> Vec<Timed> {
    vec![timed::<RustSide>("rust"), timed::<PortSide>("port")]
}

/// Prints the table. Ends the program with status 1 where a side does not answer as the Rust does.
pub fn run() {
    let clock = measure::clock_cost();
    table::print_head(ROUNDS, clock);
    for (name, job) in jobs::all() {
        if let Err(message) = time(&name, &job.bytes(), clock) {
            eprintln!("{name}: {message}");
            std::process::exit(1);
        }
    }
}

/// The port alone plays the session of a job, the first being 1. Says what was played.
pub fn play(job: usize) -> Result<String, String> {
    let named = job.checked_sub(1).and_then(|place| jobs::all().into_iter().nth(place));
    let (name, job) = named.ok_or_else(|| format!("there is no job {job}"))?;
    let script = Script::new::<RustSide>(job.bytes())?;
    measure::whole::<PortSide>(&script);
    let deliveries = script.count(Kind::Delivery);
    Ok(format!("{name}: 1 opening, {} plain steps, {deliveries} deliveries", script.calls() - deliveries))
}

fn time(name: &str, job: &[u8], clock: Duration) -> Result<(), String> {
    let sides = sides();
    let script = Script::new::<RustSide>(job.to_vec())?;
    for side in &sides {
        (side.script)(job.to_vec()).map_err(|message| format!("{}: {message}", side.name))?;
    }
    let sessions: Vec<u32> = sides.iter().map(|side| sessions(side, &script, clock)).collect();
    let mut rounds: Vec<Vec<Figures>> = sides.iter().map(|_| Vec::with_capacity(ROUNDS)).collect();
    for turn in 0..ROUNDS {
        // Each side in its turn goes first.
        for place in 0..sides.len() {
            let side = (turn + place) % sides.len();
            rounds[side].push((sides[side].round)(&script, sessions[side], clock));
        }
    }
    let figures: Vec<_> = sides.iter().zip(&rounds).map(|(side, rounds)| (side.name, medians(rounds))).collect();
    table::print_job(name, &script, &figures);
    Ok(())
}

/// How many sessions a side gets through in half a round: they are made twice, once for the calls and once whole.
fn sessions(side: &Timed, script: &Script, clock: Duration) -> u32 {
    const TRIED: u32 = 10;
    let start = Instant::now();
    (side.round)(script, TRIED, clock);
    let fitting = f64::from(TRIED) * ROUND.as_secs_f64() / start.elapsed().as_secs_f64();
    fitting.clamp(4.0, 10_000.0) as u32
}

fn medians(rounds: &[Figures]) -> Figures {
    std::array::from_fn(|kind| median(rounds.iter().map(|figures| figures[kind]).collect()))
}

fn median(mut figures: Vec<f64>) -> f64 {
    figures.sort_by(f64::total_cmp);
    figures[figures.len() / 2]
}
