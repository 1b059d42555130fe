//! Random events of a station, with sets small enough that flags meet again, and runs of quiet periods.

use crate::capability::{Frame, Set};
use crate::random::Random;
use crate::session::Event;

/// A maker of random station events.
#[derive(Clone, Debug)]
pub struct Stations {
    quiet_periods: u64,
}

impl Stations {
    /// The maker at the start of a session.
    pub fn begin() -> Stations {
        Stations { quiet_periods: 0 }
    }

    /// The next event.
    pub fn event(&mut self, random: &mut Random) -> Event {
        if self.quiet_periods > 0 {
            self.quiet_periods -= 1;
            return Event::PeriodEnd;
        }
        match random.below(12) {
            0 => Event::Fresh(set(random)),
            1..=4 => Event::Use(set(random)),
            5..=6 => Event::PeriodEnd,
            7 => {
                self.quiet_periods = random.below(4);
                Event::PeriodEnd
            }
            _ => Event::Received(frame(random)),
        }
    }
}

fn frame(random: &mut Random) -> Frame {
    Frame {
        opcode: random.weighted(&[(4, 0), (4, 1), (1, 2), (1, 255)]),
        oldest_tx: set(random),
        current_tx: set(random),
        current_rx: set(random),
    }
}

/// A set: empty, some of six flags, or any word.
fn set(random: &mut Random) -> Set {
    const FLAGS: [Set; 6] = [1, 2, 4, 0x100, 0x1_0000, 0x8000_0000];
    let few = (0..random.between(1, 3)).fold(0, |set, _| set | random.pick(&FLAGS));
    let any = random.word() as Set;
    random.weighted(&[(2, 0), (10, few), (1, any), (1, Set::MAX)])
}
