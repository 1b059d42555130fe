//! A wall box's first minute, through the safe binding. `c/wall_box.c` does the same in C and prints the same lines.

use pikurandal::{rate, Answer, Cell, Channel, Frame, Order, Record, Refusal, Station, Table, Timer};

const CHANNEL: Channel = Channel {
    destination: [2, 0, 0, 0, 0, 1],
    source: [2, 0, 0, 0, 0, 2],
    priority: 3,
};

fn main() -> Result<(), Refusal> {
    channel()?;
    station()?;
    request()
}

fn channel() -> Result<(), Refusal> {
    let mut table = Table::new(); // the empty table
    show("frame 10 opens the channel", table.data(&CHANNEL, 100, 10, 1010)?);
    show("frame 12 comes before 11", table.data(&CHANNEL, 101, 12, 1012)?);
    show_record("a look at the channel", &table.look(&CHANNEL)?);
    show("frame 12 comes again", table.data(&CHANNEL, 102, 12, 5012)?);
    show("frame 11 fills the gap", table.data(&CHANNEL, 110, 11, 1011)?);
    show("a reminder of 14", table.reminder(&CHANNEL, 120, 14)?);
    show("frame 14 comes", table.data(&CHANNEL, 121, 14, 1014)?);
    show("150 ticks later", table.tick(&CHANNEL, 270)?);
    show("frame 2000 restarts", table.data(&CHANNEL, 280, 2000, 3000)?);
    show("the channel is closed", table.close(&CHANNEL, 290)?);
    if let Err(refusal) = table.tick(&CHANNEL, 300) {
        println!("a tick after that: refused by {}", refusal.number());
    }
    Ok(())
}

fn station() -> Result<(), Refusal> {
    let mut station = Station::fresh(0x01);
    let order = station.use_flags(0x04);
    println!("flags 4 used: sends {}, timer {:?}", order.sends.is_some(), order.timer);
    let heard = Frame {
        oldest_tx: 0x10,
        current_tx: 0x22,
        current_rx: 0,
    };
    let order = station.receive(1, heard)?;
    assert_eq!(order.timer, Timer::Started);
    println!("a frame received: really new {:08x}", order.reported);
    show_period("the period ends", station.end_period());
    show_period("the next one ends", station.end_period());
    println!("the timer runs out: sends {}", sets(&station.frame()));
    show_period("one more period ends", station.end_period());
    Ok(())
}

fn request() -> Result<(), Refusal> {
    let request = rate::Request {
        destination: CHANNEL.destination,
        source: CHANNEL.source,
        bands: 2,
        pe1: 4,
        rank1: 2,
        pe2: 12,
        rank2: 1,
        ..rate::Request::default()
    };
    let mut frame = [0; 80];
    let count = rate::write(&mut frame, &request, &[3, 0, 0, 0, 0, 9])?;
    let reading = rate::read(&frame[..count])?;
    let chosen = rate::chosen(&reading.request).unwrap_or(0);
    let pe = match chosen {
        2 => reading.request.pe2,
        _ => reading.request.pe1,
    };
    let mbit = rate::rate_of(pe).unwrap_or(0);
    println!(
        "a rate request of {count} octets: band {chosen} at {mbit} Mbit/s, address octets {:?}",
        reading.addresses
    );
    Ok(())
}

fn show(what: &str, answer: Answer<'_>) {
    let Answer {
        up,
        returned,
        nack,
        lost,
    } = answer;
    println!("{what}: up {up:?}, returned {returned:?}, asked for {nack:?}, lost {lost}");
}

/// The numbers from the oldest missing on, and what the channel knows of each.
fn show_record(what: &str, record: &Record) {
    let Record {
        current,
        oldest,
        latest,
        cells,
    } = record;
    print!("{what}: current {current}, oldest missing {oldest}, latest time {latest}");
    for (steps, cell) in (0..).zip(cells) {
        let number = (oldest + steps) % 4_096;
        match cell {
            Cell::Waits(handle) => print!(", {number} waits with {handle}"),
            Cell::Missing(since) => print!(", {number} missing since {since}"),
        }
    }
    println!();
}

fn show_period(what: &str, order: Order) {
    let sent = order.sends.as_ref().map_or("nothing".to_string(), sets);
    println!("{what}: sends {sent}, timer {:?}", order.timer);
}

fn sets(frame: &Frame) -> String {
    let Frame {
        oldest_tx,
        current_tx,
        current_rx,
    } = frame;
    format!("OldestTx {oldest_tx:08x}, CurrentTx {current_tx:08x}, CurrentRx {current_rx:08x}")
}
