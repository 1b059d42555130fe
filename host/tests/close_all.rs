//! A table names its open channels, and gives back all that waits in it before it is dropped.

use pikurandal::{Channel, Refusal, Table};

/// Channels at the edges of what a key can be.
fn edges() -> Vec<Channel> {
    let addresses = [[0; 6], [0xff; 6], [1, 2, 3, 4, 5, 6], [0x80, 0, 0, 0, 0, 1]];
    let mut channels = Vec::new();
    for destination in addresses {
        for source in addresses {
            channels.extend([0, 3, 4, 7].map(|priority| Channel {
                destination,
                source,
                priority,
            }));
        }
    }
    channels
}

#[test]
fn a_table_names_its_open_channels_by_their_places() -> Result<(), Refusal> {
    let mut table = Table::new();
    assert_eq!(table.channels().count(), 0);
    let mut channels = edges();
    assert_eq!(channels.len(), 64);
    for channel in &channels {
        table.data(channel, 100, 10, 1)?;
    }
    assert_eq!(table.channels().collect::<Vec<Channel>>(), channels);
    table.close(&channels[0], 100)?;
    table.close(&channels[41], 100)?;
    channels[0].priority = 5;
    table.data(&channels[0], 100, 10, 1)?;
    channels.remove(41);
    assert_eq!(table.channels().collect::<Vec<Channel>>(), channels);
    Ok(())
}

#[test]
fn all_that_waits_comes_back_place_by_place_and_in_sequence() -> Result<(), Refusal> {
    let mut table = Table::new();
    let channels = edges();
    let mut waiting = Vec::new();
    for (place, channel) in (0..).zip(&channels) {
        // 4,095 is missing, and 0 to 2 wait across the end of the ring; the last comes first, at a later time at each place.
        table.data(channel, 100, 4_094, 0)?;
        for number in [2, 0, 1] {
            assert_eq!(
                table
                    .data(channel, 100 + u64::from(place), number, 10 * place + u32::from(number))?
                    .up,
                []
            );
        }
        waiting.extend([0, 1, 2].map(|number| 10 * place + number));
    }
    assert_eq!(table.close_all(), waiting);
    assert_eq!(table.channels().count(), 0);
    assert_eq!(table.look(&channels[63]), Err(Refusal::NoChannel));
    assert_eq!(table.close_all(), []);
    Ok(())
}

#[test]
fn time_may_be_the_last_one_there_is() -> Result<(), Refusal> {
    let mut table = Table::new();
    table.data(&edges()[0], u64::MAX, 10, 1)?;
    table.data(&edges()[0], u64::MAX, 12, 2)?;
    assert_eq!(table.close_all(), [2]);
    Ok(())
}
