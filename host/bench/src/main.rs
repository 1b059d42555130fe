//! The archive beside the same functions written by hand in Rust and C: the same input, in one run.

#![deny(unsafe_op_in_unsafe_fn)]
#![warn(missing_docs)]

mod agreement;
mod implementations;
mod inplace;
mod measure;
mod nothing;
mod scenarios;

use implementations::Implementation;
use measure::Stage;
use scenarios::Scenarios;
use std::process::{Command, ExitCode};

const USAGE: &str = "\
bench                  times
bench --instructions   instructions, counted by valgrind's callgrind";

/// Rounds over all implementations; the best pass of all rounds counts. `TIMES` says it.
const ROUNDS: usize = 1_000;

/// What counts instructions: a command that says them last.
const COUNTER: [&str; 3] = ["valgrind", "--tool=callgrind", "--callgrind-out-file=/dev/null"];

fn main() -> ExitCode {
    let words: Vec<String> = std::env::args().skip(1).collect();
    let words: Vec<&str> = words.iter().map(String::as_str).collect();
    let implementations = implementations::all();
    let scenarios = Scenarios::all();
    match words.as_slice() {
        [] => measured(&implementations, &scenarios, &TIMES),
        ["--instructions"] => measured(&implementations, &scenarios, &INSTRUCTIONS),
        ["passes", passes, implementation, scenario] => {
            self::passes(&implementations, &scenarios, [passes, implementation, scenario])
        }
        _ => {
            eprintln!("{USAGE}");
            ExitCode::from(2)
        }
    }
}

/// What is measured of a call, and how.
struct Measure {
    says: &'static str,
    costs: fn(&[Implementation], &str, &mut Stage<'_>) -> Option<Vec<f64>>,
}

const TIMES: Measure = Measure {
    says: "Nanoseconds a call, with what the call itself costs: the best of 1,000 passes.",
    costs: times,
};

const INSTRUCTIONS: Measure = Measure {
    says: "Instructions a call, without what the call itself costs.",
    costs: instructions,
};

/// What holds for each measure.
const SAYS: &str = "\
The answer buffers are not cleared: each call gets them as the last one left them, and the writer's output likewise.
The ratio is that of the archive to the cheapest peer.";

/// Measures, once all implementations have been seen to answer alike.
fn measured(implementations: &[Implementation], scenarios: &Scenarios, measure: &Measure) -> ExitCode {
    if let Err(difference) = agreement::seen(implementations, scenarios) {
        println!("{difference}");
        return ExitCode::FAILURE;
    }
    println!("The peers are compiled by {}.", env!("BENCH_COMPILERS"));
    println!("{}\n{SAYS}\n", measure.says);
    let names: Vec<&str> = implementations
        .iter()
        .map(|implementation| implementation.name)
        .collect();
    println!("| scenario | {} | ratio |", names.join(" | "));
    println!("|---|{}---|", "---|".repeat(names.len()));
    for (name, mut stage) in scenarios.stages() {
        let costs = match (measure.costs)(implementations, name, &mut stage) {
            Some(costs) => costs,
            None => return ExitCode::FAILURE,
        };
        let cheapest_peer = costs[1..].iter().copied().fold(f64::INFINITY, f64::min);
        let columns: Vec<String> = costs.iter().map(|cost| format!("{cost:.1}")).collect();
        println!("| {name} | {} | {:.2} |", columns.join(" | "), costs[0] / cheapest_peer);
    }
    ExitCode::SUCCESS
}

/// Nanoseconds a call, of the best pass.
fn times(implementations: &[Implementation], _: &str, stage: &mut Stage<'_>) -> Option<Vec<f64>> {
    let mut best = vec![f64::INFINITY; implementations.len()];
    for _ in 0..ROUNDS {
        for (best, implementation) in best.iter_mut().zip(implementations) {
            let took = stage.pass(implementation).as_nanos() as f64 / stage.calls() as f64;
            *best = best.min(took);
        }
    }
    Some(best)
}

/// Instructions a call, counted over whole runs: what more passes cost, less what the same passes cost with an
/// implementation that does nothing.
fn instructions(implementations: &[Implementation], name: &str, stage: &mut Stage<'_>) -> Option<Vec<f64>> {
    let nothing = instructions_of(&implementations::NOTHING, name, stage);
    let costs = |implementation| Some(instructions_of(implementation, name, stage)? - nothing?);
    let costs: Option<Vec<f64>> = implementations.iter().map(costs).collect();
    if costs.is_none() {
        eprintln!("the instruction counter could not be run, or its run of '{name}' failed");
    }
    costs
}

fn instructions_of(implementation: &Implementation, name: &str, stage: &Stage<'_>) -> Option<f64> {
    let more = 1 + 2_047 / stage.calls();
    let few = collected(implementation, name, 1)?;
    let many = collected(implementation, name, 1 + more)?;
    Some((many - few) / (more * stage.calls()) as f64)
}

/// All instructions of a run with so many passes, if it ended well.
fn collected(implementation: &Implementation, name: &str, passes: usize) -> Option<f64> {
    let run = Command::new(COUNTER[0])
        .args(&COUNTER[1..])
        .arg(std::env::current_exe().ok()?)
        .args(["passes", &passes.to_string(), implementation.name, name])
        .output()
        .ok()?;
    if !run.status.success() {
        return None;
    }
    let said = String::from_utf8_lossy(&run.stderr).into_owned();
    let count = said.lines().find_map(|line| line.split("Collected :").nth(1))?;
    count.trim().parse::<f64>().ok()
}

fn passes(implementations: &[Implementation], scenarios: &Scenarios, words: [&str; 3]) -> ExitCode {
    let [passes, implementation, scenario] = words;
    let all = [implementations, &[implementations::NOTHING]].concat();
    let implementation = all.iter().find(|known| known.name == implementation);
    let stage = scenarios.stages().find(|(name, _)| *name == scenario);
    match (passes.parse::<usize>(), implementation, stage) {
        (Ok(passes), Some(implementation), Some((_, mut stage))) => {
            for _ in 0..passes {
                stage.pass(implementation);
            }
            ExitCode::SUCCESS
        }
        _ => ExitCode::from(2),
    }
}
