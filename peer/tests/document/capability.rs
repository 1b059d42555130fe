//! Document 01, 'Capability sets'.

use peer::capability::{Frame, Order, Station, Timer};

fn sets(station: &Station) -> (u32, u32, u32) {
    (station.oldest_tx(), station.current_tx(), station.current_rx())
}

const ANNOUNCED: Order = Order {
    sent: true,
    timer: Timer::Started,
    ..Order::QUIET
};

fn frame(opcode: u8, oldest_tx: u32, current_tx: u32) -> Frame {
    Frame {
        opcode,
        oldest_tx,
        current_tx,
        current_rx: 0xffff_ffff,
    }
}

#[test]
fn a_fresh_station_has_its_default_set_only() {
    assert_eq!(sets(&Station::fresh(0x0f)), (0, 0x0f, 0));
}

#[test]
fn a_use_is_announced_exactly_if_some_flag_is_in_neither_set() {
    let mut station = Station::fresh(0x0f);
    assert_eq!(station.use_of(0x03), Order::QUIET);
    assert_eq!(station.use_of(0x13), ANNOUNCED);
    assert_eq!(station.use_of(0x10), Order::QUIET);
    assert_eq!(station.use_of(0), Order::QUIET);
    assert_eq!(sets(&station), (0, 0x1f, 0));
}

#[test]
fn a_use_without_announcement_is_remembered_too() {
    let mut station = Station::fresh(0);
    station.use_of(1);
    station.period_end();
    assert_eq!(station.use_of(1), Order::QUIET);
    station.period_end();
    assert_eq!(sets(&station), (1, 1, 0));
    station.period_end();
    assert_eq!(sets(&station), (1, 0, 0));
}

#[test]
fn periods_move_the_sets_and_order_the_timer() {
    let mut station = Station::fresh(0x0f);
    station.use_of(0x10);
    let started = ANNOUNCED;
    let cancelled = Order {
        timer: Timer::Cancelled,
        ..ANNOUNCED
    };
    let after = [
        (started, (0, 0x1f, 0)),
        (started, (0x1f, 0x0f, 0)),
        (cancelled, (0x0f, 0x0f, 0)),
        (cancelled, (0x0f, 0x0f, 0)),
    ];
    for (order, expected) in after {
        assert_eq!(station.period_end(), order);
        assert_eq!(sets(&station), expected);
    }
}

#[test]
fn a_received_frame_adds_reports_and_takes_away() {
    let mut station = Station::fresh(0);
    let really_new = |really_new| Order {
        really_new,
        ..Order::QUIET
    };
    assert_eq!(station.received(&frame(0, 0, 0x03)), really_new(0x03));
    station.period_end();
    assert_eq!(station.received(&frame(0, 0, 0x06)), really_new(0x04));
    assert_eq!(sets(&station).2, 0x07);
    assert_eq!(station.received(&frame(0, 0x07, 0x02)), really_new(0));
    assert_eq!(sets(&station).2, 0x02);
}

#[test]
fn opcode_1_starts_the_timer_and_above_1_is_refused() {
    let mut station = Station::fresh(0);
    let started = Order {
        timer: Timer::Started,
        really_new: 1,
        ..Order::QUIET
    };
    assert_eq!(station.received(&frame(1, 0, 1)), started);
    for opcode in [2, 3, 255] {
        let before = station;
        let refused = Order {
            number: 30,
            ..Order::QUIET
        };
        assert_eq!(station.received(&frame(opcode, 1, 2)), refused);
        assert_eq!(station, before);
    }
}
