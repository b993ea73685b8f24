//! The tables and examples of HOSTS.md.

mod common;

use common::{number, tables};
use compare::reading::host::{respond, Flag, Host, HostRefusal, Port, Trial};

/// The ports of the axis, as the table has them.
#[test]
fn the_table_of_the_axis() {
    let table = &tables("HOSTS.md", "The axis host")[0];
    let axis = Host::axis();
    let rows = table.columns(["Port", "Flag", "Limits", "Rest", "First value"]);
    assert_eq!(rows.len(), axis.ports().len());
    for ([p, flag, limits, rest, first], port) in rows.into_iter().zip(axis.ports()) {
        assert_eq!(axis.read(number(p) as usize), Ok(port.value));
        assert_eq!(format!("{:?}", port.flag).to_lowercase(), flag);
        let (low, high) = limits.split_once(" to ").unwrap();
        assert_eq!(u64::from(port.low), number(low));
        let high = match high {
            "2^32 − 1" => u64::from(u32::MAX),
            high => number(high),
        };
        assert_eq!(u64::from(port.high), high);
        let rest = match rest {
            "none" => None,
            rest => Some(number(rest) as u32),
        };
        assert_eq!(port.rest, rest);
        assert_eq!(u64::from(port.value), number(first));
    }
}

/// With an order of 120 and a ramp of 50.
#[test]
fn the_table_of_ticks() {
    let table = &tables("HOSTS.md", "The axis host")[1];
    let mut axis = Host::axis();
    axis.write(0, 120).unwrap();
    for [ticks, speed, position] in table.columns(["Ticks", "Speed", "Position"]) {
        axis.tick();
        assert_eq!(axis.read(2), Ok(number(speed) as u32));
        assert_eq!(axis.read(3), Ok(number(position) as u32));
        let trial = Trial {
            port: 0,
            value: 120,
            ticks: number(ticks) as u32,
            shown: 3,
        };
        let answer = respond(&mut Host::axis(), trial);
        assert_eq!(answer, Ok(number(position) as u32));
    }
}

/// An axis that rests while it moves brakes at its next ticks, at a ramp of 50.
#[test]
fn a_resting_axis_brakes() {
    let mut axis = Host::axis();
    axis.write(1, 500).unwrap();
    axis.write(0, 120).unwrap();
    axis.tick();
    assert_eq!(axis.read(2), Ok(120));
    axis.rest();
    let values = |axis: &Host| -> Vec<u32> { axis.ports().iter().map(|port| port.value).collect() };
    assert_eq!(values(&axis), [0, 50, 120, 120]);
    axis.tick();
    assert_eq!(values(&axis), [0, 50, 70, 190]);
    axis.tick();
    assert_eq!(values(&axis), [0, 50, 20, 210]);
    axis.tick();
    assert_eq!(values(&axis), [0, 50, 0, 210]);
}

/// The position wraps.
#[test]
fn the_position_is_modulo() {
    let mut axis = Host::axis();
    axis.write(0, 3000).unwrap();
    axis.write(1, 500).unwrap();
    let ticks = 1_431_700;
    let mut position = 0_u64;
    for tick in 1..=ticks {
        axis.tick();
        position += 3000.min(500 * tick);
    }
    assert!(position > 1 << 32);
    assert_eq!(axis.read(3), Ok((position % (1 << 32)) as u32));
}

const ROW: Port = Port {
    value: 40,
    low: 10,
    high: 20,
    flag: Flag::Order,
    rest: Some(30),
};

/// "The four calls", over a table: a row may hold a value outside its limits, also after a rest.
#[test]
fn the_four_calls_over_a_table() {
    let sense = Port {
        flag: Flag::Sense,
        rest: Some(3),
        ..ROW
    };
    let restless = Port { rest: None, ..ROW };
    let mut table = Host::table(&[ROW, sense, restless]);
    assert_eq!(table.read(0), Ok(40));
    assert_eq!(table.read(3), Err(HostRefusal::NoPort));
    assert_eq!(table.write(3, 0), Err(HostRefusal::NoPort));
    assert_eq!(table.write(1, 15), Err(HostRefusal::SensePort));
    assert_eq!(table.write(1, 0), Err(HostRefusal::SensePort));
    assert_eq!(table.write(0, 9), Err(HostRefusal::OutOfLimits));
    assert_eq!(table.write(0, 21), Err(HostRefusal::OutOfLimits));
    assert_eq!(table.ports(), [ROW, sense, restless]);
    assert_eq!(table.write(0, 10), Ok(()));
    assert_eq!(table.write(0, 20), Ok(()));
    assert_eq!(table.write(2, 15), Ok(()));
    table.tick();
    table.rest();
    assert_eq!(
        table.ports(),
        [
            Port { value: 30, ..ROW },
            Port { value: 3, ..sense },
            Port {
                value: 15,
                ..restless
            }
        ]
    );
}

/// A row with `low` above `high` takes no order.
#[test]
fn a_row_that_takes_no_order() {
    let row = Port {
        low: 20,
        high: 10,
        ..ROW
    };
    let mut table = Host::table(&[row]);
    for v in 0..30 {
        assert_eq!(table.write(0, v), Err(HostRefusal::OutOfLimits));
    }
}

/// Rows after the 256th are no ports.
#[test]
fn long_tables() {
    let mut table = Host::table(&[ROW; 300]);
    assert_eq!(table.ports().len(), 256);
    assert_eq!(table.write(255, 15), Ok(()));
    assert_eq!(table.write(256, 15), Err(HostRefusal::NoPort));
    assert_eq!(table.read(256), Err(HostRefusal::NoPort));
}

/// "Refusals".
#[test]
fn the_numbers_of_refusals() {
    let table = &tables("HOSTS.md", "Refusals")[0];
    let all = [
        HostRefusal::NoPort,
        HostRefusal::SensePort,
        HostRefusal::OutOfLimits,
    ];
    for ([number, case], refusal) in table.columns(["Number", "Case"]).into_iter().zip(all) {
        assert_eq!(refusal.number().to_string(), number);
        assert_eq!(format!("`{refusal:?}`"), case);
    }
}

/// "A host of one's own": a counter of parcels.
#[test]
fn the_counter() {
    let pace = Port {
        value: 1,
        low: 0,
        high: 100,
        flag: Flag::Order,
        rest: Some(1),
    };
    let count = Port {
        value: 0,
        low: 0,
        high: u32::MAX,
        flag: Flag::Sense,
        rest: None,
    };
    let mut counter = Host::new(vec![pace, count], |ports| {
        ports[1].value = ports[1].value.wrapping_add(ports[0].value);
    });
    let trial = Trial {
        port: 0,
        value: 100,
        ticks: 3,
        shown: 1,
    };
    assert_eq!(respond(&mut counter, trial), Ok(300));
    counter.rest();
    counter.tick();
    assert_eq!(counter.read(1), Ok(301));
    let absent = Trial { shown: 2, ..trial };
    assert_eq!(respond(&mut counter, absent), Err(HostRefusal::NoPort));
    assert_eq!(counter.read(0), Ok(1));
}
