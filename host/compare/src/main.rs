//! The program: compares the archive with `peer` on random lent tables and random sessions.

#![forbid(unsafe_code)]

use compare::players::Archive;
use compare::{lent, sessions, Mismatch};
use std::process::ExitCode;

const USAGE: &str = "\
compare lent CALLS SEED            calls on random lent tables
compare looks LOOKS SEED           looks at random lent tables
compare sessions EVENTS SEED [N]   the events of a random session, or of N sessions from this seed on
The counts are from 1 on.";

fn main() -> ExitCode {
    let words: Vec<String> = std::env::args().skip(1).collect();
    let words: Vec<&str> = words.iter().map(String::as_str).collect();
    match order(&words) {
        Some(order) => order.carried_out(),
        None => {
            eprintln!("{USAGE}");
            ExitCode::from(2)
        }
    }
}

/// What is compared.
#[derive(Clone, Copy)]
enum Part {
    Lent,
    Looks,
    Sessions,
}

/// So many calls, looks or events of each of so many seeds, from the first one on.
struct Order {
    part: Part,
    count: u64,
    seed: u64,
    seeds: u64,
}

fn order(words: &[&str]) -> Option<Order> {
    let (part, count, seed, seeds) = match words {
        ["lent", count, seed] => (Part::Lent, count, seed, "1"),
        ["looks", count, seed] => (Part::Looks, count, seed, "1"),
        ["sessions", count, seed] => (Part::Sessions, count, seed, "1"),
        ["sessions", count, seed, seeds] => (Part::Sessions, count, seed, *seeds),
        _ => return None,
    };
    let order = Order {
        part,
        count: count.parse().ok()?,
        seed: seed.parse().ok()?,
        seeds: seeds.parse().ok()?,
    };
    let all = order.count.checked_mul(order.seeds)?;
    order.seed.checked_add(order.seeds)?;
    (all > 0).then_some(order)
}

impl Order {
    fn carried_out(&self) -> ExitCode {
        let name = match self.part {
            Part::Lent => "lent tables",
            Part::Looks => "looks",
            Part::Sessions => "sessions",
        };
        match self.compared(name) {
            Ok(compared) => {
                let seeds = match self.seeds {
                    1 => format!("seed {}", self.seed),
                    seeds => format!("{seeds} seeds from {} on", self.seed),
                };
                println!("{name}: {compared} of {seeds} answered alike");
                ExitCode::SUCCESS
            }
            Err(mismatch) => {
                println!("{name}: MISMATCH at {mismatch}");
                ExitCode::FAILURE
            }
        }
    }

    /// How many were compared, if all were answered alike.
    fn compared(&self, name: &'static str) -> Result<u64, Mismatch> {
        let mut progress = progress(name, self.count * self.seeds);
        let mut compared = 0;
        for seed in self.seed..self.seed + self.seeds {
            let progress = |done| progress(compared + done);
            compared += match self.part {
                Part::Lent => lent::compare(&lent::archive, seed, self.count, progress),
                Part::Looks => lent::compare_looks(&lent::archive_look, seed, self.count, progress),
                Part::Sessions => sessions::compare(&mut Archive::begin(), seed, self.count, progress),
            }?;
        }
        Ok(compared)
    }
}

/// Says how far it is, ten times.
fn progress(part: &'static str, all: u64) -> impl FnMut(u64) {
    let mut tenths = 0;
    move |done| {
        while tenths < 10 && 10 * done >= (tenths + 1) * all {
            tenths += 1;
            eprintln!("{part}: {done} of {all}");
        }
    }
}
