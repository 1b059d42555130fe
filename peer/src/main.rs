//! The program: makes random sessions, answers sessions, and writes the example session.

#![forbid(unsafe_code)]

use peer::make::{self, Ending};
use peer::{session, story};
use std::io::{self, BufWriter, Read, Write};
use std::process::ExitCode;

const USAGE: &str = "\
peer make SEED EVENTS [cut|unreadable]   writes a random session of so many events, 1 or more, to standard output
peer answer                              answers the session on standard input, a line for each event
peer story                               writes the example session of the east dormitory to standard output";

/// What the program is asked to do.
enum Order {
    Make(u64, usize, Ending),
    Answer,
    Story,
}

fn main() -> ExitCode {
    let words: Vec<String> = std::env::args().skip(1).collect();
    let words: Vec<&str> = words.iter().map(String::as_str).collect();
    let order = match order(&words) {
        Some(order) => order,
        None => {
            eprintln!("{USAGE}");
            return ExitCode::from(2);
        }
    };
    match carry_out(&order) {
        Ok(()) => ExitCode::SUCCESS,
        Err(error) => {
            eprintln!("peer: {error}");
            ExitCode::FAILURE
        }
    }
}

fn order(words: &[&str]) -> Option<Order> {
    let (seed, events, ending) = match words {
        ["answer"] => return Some(Order::Answer),
        ["story"] => return Some(Order::Story),
        ["make", seed, events] => (seed, events, Ending::Whole),
        ["make", seed, events, "cut"] => (seed, events, Ending::Cut),
        ["make", seed, events, "unreadable"] => (seed, events, Ending::Unreadable),
        _ => return None,
    };
    let events = events.parse().ok().filter(|events| *events > 0)?;
    Some(Order::Make(seed.parse().ok()?, events, ending))
}

fn carry_out(order: &Order) -> io::Result<()> {
    let mut output = BufWriter::new(io::stdout().lock());
    match order {
        Order::Make(seed, events, ending) => make::session(*seed, *events, *ending, &mut output)?,
        Order::Answer => {
            let mut stream = Vec::new();
            io::stdin().lock().read_to_end(&mut stream)?;
            session::answer(&stream, &mut output)?;
        }
        Order::Story => output.write_all(&session::stream(&story::events()))?,
    }
    output.flush()
}
