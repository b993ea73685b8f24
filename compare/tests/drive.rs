//! The tables and examples of DRIVE.md, and of MACHINE.md, LAW.md and WORKED.md where they speak
//! of grants and faults.

mod common;

use common::{assemble, checked, def, hex, number, single, tables, Random, NEW, RET, TICK};
use compare::reading::drive::{Answer, Call, Drive};
use compare::reading::host::{Flag, Host, Port};
use compare::reading::machine::{Register, State};
use compare::reading::refusal::{Place, Refusal};
use std::time::Instant;

fn sample() -> Vec<u8> {
    let path = concat!(env!("CARGO_MANIFEST_DIR"), "/../samples/ramp.bin");
    std::fs::read(path).expect("the sample is there")
}

/// The sample with its order raised to 4,000.
fn steep() -> Vec<u8> {
    let mut module = sample();
    assert_eq!(module[24..26], hex("B004"));
    module[24..26].copy_from_slice(&hex("A00F"));
    module
}

/// A call as the tables have it; none for the start.
fn call_of(cell: &str) -> Option<Call> {
    match cell {
        "(start)" => None,
        "restart" => Some(Call::Restart),
        "power cycle" => Some(Call::PowerCycle),
        grant => {
            let fuel = grant.strip_prefix("grant ").expect("it is a grant");
            Some(Call::Grant {
                fuel: number(fuel) as u32,
            })
        }
    }
}

/// An answer as the tables have it.
fn text_of(answer: Result<Answer, Refusal>) -> String {
    match answer {
        Ok(answer) => {
            let state = match answer.state {
                State::Running => "running",
                State::Ended => "ended",
                State::Tripped(_) => "tripped",
            };
            format!("{}, {state}", answer.steps)
        }
        Err(refusal) => {
            assert_eq!(refusal.layer().number(), 0);
            assert_eq!(refusal.place(), Place::default());
            format!("refused with {}", refusal.number())
        }
    }
}

fn place_of(drive: &Drive) -> String {
    match drive.place() {
        Ok(place) => format!("{} {}", place.routine, place.instruction),
        Err(refusal) => {
            assert_eq!(refusal, Refusal::Absent);
            "none".to_string()
        }
    }
}

fn ports_of(host: &Host) -> String {
    let values: Vec<String> = host.ports().iter().map(|p| p.value.to_string()).collect();
    values.join(", ")
}

fn marks_of(drive: &Drive) -> String {
    let marks: Vec<String> = (0..drive.faults())
        .map(|i| u8::from(drive.fault(i).unwrap().marked).to_string())
        .collect();
    if marks.is_empty() {
        "none".to_string()
    } else {
        marks.join(", ")
    }
}

/// "Grant": the table of the sample over a new axis.
#[test]
fn the_table_of_the_sample() {
    let table = &tables("DRIVE.md", "Grant")[0];
    let columns = [
        "Call",
        "Answer",
        "Place afterwards",
        "Depth",
        "Ports 0 to 3",
    ];
    let module = sample();
    let mut host = Host::axis();
    let mut drive = Drive::start(checked(&module));
    let rows = table.columns(columns);
    assert_eq!(rows.len(), 10);
    for [call, answer, place, depth, ports] in rows {
        if let Some(call) = call_of(call) {
            assert_eq!(text_of(drive.call(&mut host, call)), answer);
        }
        assert_eq!(place_of(&drive), place, "{call}");
        assert_eq!(drive.depth().to_string(), depth, "{call}");
        assert_eq!(ports_of(&host), ports, "{call}");
    }
}

/// "Faults over calls": the table, and each fault's numbers.
#[test]
fn the_table_of_faults() {
    let table = &tables("DRIVE.md", "Faults over calls")[0];
    let module = steep();
    let mut host = Host::axis();
    let mut drive = Drive::start(checked(&module));
    let rows = table.columns(["Call", "Answer", "Marks afterwards"]);
    assert_eq!(rows.len(), 11);
    for [call, answer, marks] in rows {
        let call = call_of(call).unwrap();
        assert_eq!(text_of(drive.call(&mut host, call)), answer);
        assert_eq!(marks_of(&drive), marks);
        for i in 0..drive.faults() {
            let trip = drive.fault(i).unwrap().trip;
            assert_eq!(trip.cause.number(), 6);
            assert_eq!(trip.cause.layer().number(), 3);
            assert_eq!(
                trip.place,
                Place {
                    routine: 0,
                    instruction: 2
                }
            );
            assert_eq!(trip.cause.detail(), 0);
        }
    }
}

/// Trips this drive so many times, with restarts between the trips.
fn trip_again(drive: &mut Drive, host: &mut Host, times: usize) {
    for _ in 0..times {
        if drive.state() != State::Running {
            drive.restart().unwrap();
        }
        let answer = drive.grant(host, 10_000).unwrap();
        assert!(matches!(answer.state, State::Tripped(_)));
    }
}

/// The list of marks: so many with a mark, and then so many without.
fn marks(with: usize, without: usize) -> String {
    let marks = [vec!["1"; with], vec!["0"; without]].concat();
    marks.join(", ")
}

/// "Faults over calls": twenty trips.
#[test]
fn twenty_trips() {
    let module = steep();
    let mut host = Host::axis();
    let mut drive = Drive::start(checked(&module));
    trip_again(&mut drive, &mut host, 20);
    assert_eq!(marks_of(&drive), marks(0, 16));
    drive.power_cycle(&mut host);
    assert_eq!(marks_of(&drive), marks(16, 0));
    trip_again(&mut drive, &mut host, 3);
    assert_eq!(marks_of(&drive), marks(13, 3));
    drive.power_cycle(&mut host);
    assert_eq!(marks_of(&drive), marks(3, 0));
}

/// MACHINE.md, "Faults".
#[test]
fn three_faults() {
    let module = steep();
    let mut host = Host::axis();
    let mut drive = Drive::start(checked(&module));
    trip_again(&mut drive, &mut host, 2);
    drive.power_cycle(&mut host);
    trip_again(&mut drive, &mut host, 1);
    assert_eq!(marks_of(&drive), "1, 1, 0");
    drive.power_cycle(&mut host);
    assert_eq!(marks_of(&drive), "1");
}

/// LAW.md, "The log": the list by all entries, from the trips before the last cycle and those
/// since, is the one that is kept call by call.
#[test]
fn the_list_by_the_log() {
    // Each trip has its own detail: the module counts in its port and reads past memory there.
    let rows = [NEW, (24, 0, 0, 0, 0), (16, 0, 0, 1, 4096), RET];
    let module = single(&rows);
    let port = |value| Port {
        value,
        low: 0,
        high: u32::MAX,
        flag: Flag::Order,
        rest: None,
    };
    let mut random = Random(99);
    for _ in 0..200 {
        let mut drive = Drive::start(checked(&module));
        let (mut before, mut since) = (Vec::new(), Vec::new());
        for k in 0..80 {
            let mut host = Host::table(&[port(k)]);
            if random.below(12) == 0 {
                drive.power_cycle(&mut host);
                before = std::mem::take(&mut since);
            } else {
                trip_again(&mut drive, &mut host, 1);
                since.push(u64::from(k) + 4096);
            }
            let marked = before.iter().map(|detail| (*detail, true));
            let all: Vec<(u64, bool)> = marked
                .chain(since.iter().map(|detail| (*detail, false)))
                .collect();
            let newest = &all[all.len().saturating_sub(16)..];
            let kept: Vec<(u64, bool)> = (0..drive.faults())
                .map(|i| drive.fault(i).unwrap())
                .map(|fault| (fault.trip.cause.detail(), fault.marked))
                .collect();
            assert_eq!(kept, newest);
        }
    }
}

/// "Start".
#[test]
fn a_new_drive() {
    let module = assemble(&[(0, 0, &[NEW, RET])], &[7, 8, 9]);
    let drive = Drive::start(checked(&module));
    assert_eq!(drive.state(), State::Running);
    assert_eq!(place_of(&drive), "0 0");
    assert_eq!(drive.depth(), 0);
    assert_eq!(drive.machine().frames.len(), 1);
    let memory: Vec<u8> = (0..4096).map(|i| drive.byte(i).unwrap()).collect();
    assert_eq!(memory[..3], [7, 8, 9]);
    assert_eq!(memory[3..], [0; 4093]);
    assert_eq!(drive.faults(), 0);
}

/// "The three calls": the table of all calls by the state. The fuel is tested before the state.
#[test]
fn calls_by_the_state() {
    let ended = single(&[RET]);
    let tripped = steep();
    let cases = [(&ended, 0, 0), (&ended, 1, 15), (&tripped, 10, 16)];
    for (module, fuel, refused) in cases {
        let mut host = Host::axis();
        let mut drive = Drive::start(checked(module));
        if fuel > 0 {
            drive.grant(&mut host, fuel).unwrap();
        }
        let before = drive.clone();
        for fuel in [0, 10_001, 10_002, 20_000, u32::MAX] {
            assert_eq!(drive.grant(&mut host, fuel), Err(Refusal::Fuel));
        }
        if refused > 0 {
            for fuel in [1, 5000, 10_000] {
                let refusal = drive.grant(&mut host, fuel).unwrap_err();
                assert_eq!(refusal.number(), refused);
            }
        } else {
            assert_eq!(drive.restart(), Err(Refusal::Running));
        }
        assert_eq!(drive.machine(), before.machine());
        assert_eq!(marks_of(&drive), marks_of(&before));
        assert_eq!(host.ports(), Host::axis().ports());
        let begun = Answer {
            steps: 0,
            state: State::Running,
        };
        if refused > 0 {
            assert_eq!(drive.restart(), Ok(begun));
            assert_eq!(drive.machine(), Drive::start(checked(module)).machine());
        }
        assert_eq!(drive.power_cycle(&mut host), begun);
    }
}

/// "Questions".
#[test]
fn questions() {
    let module = steep();
    let mut host = Host::axis();
    let mut drive = Drive::start(checked(&module));
    drive.grant(&mut host, 10_000).unwrap();
    // The running routine of a tripped drive is the one that tripped.
    assert_eq!(place_of(&drive), "0 2");
    assert_eq!(drive.depth(), 2);
    assert_eq!(drive.register(0), Ok(0));
    assert_eq!(drive.register(1), Ok(4000));
    for k in [2, 32, 256, 300, usize::MAX] {
        assert_eq!(drive.register(k), Err(Refusal::Absent));
    }
    assert_eq!(drive.byte(4095), Ok(0));
    for i in [4096, 65_536, usize::MAX] {
        assert_eq!(drive.byte(i), Err(Refusal::Absent));
    }
    assert!(drive.fault(0).is_ok());
    for i in [1, 16, 256, usize::MAX] {
        assert_eq!(drive.fault(i), Err(Refusal::Absent));
    }

    let module = sample();
    let mut drive = Drive::start(checked(&module));
    drive.grant(&mut host, 10_000).unwrap();
    assert_eq!(drive.state(), State::Ended);
    assert_eq!(drive.place(), Err(Refusal::Absent));
    assert_eq!(drive.depth(), 0);
    assert_eq!(drive.register(0), Err(Refusal::Absent));
    assert_eq!(drive.byte(0), Ok(0));
    assert_eq!(Refusal::Absent.number(), 18);
}

/// "A program": both functions.
#[test]
fn two_programs() {
    let module = sample();
    let mut host = Host::axis();
    let mut drive = Drive::start(checked(&module));
    let answers = [
        Call::Grant { fuel: 10_000 },
        Call::Restart,
        Call::Grant { fuel: 1 },
    ]
    .map(|call| text_of(drive.call(&mut host, call)));
    assert_eq!(answers, ["6, ended", "0, running", "1, running"]);
    assert_eq!(place_of(&drive), "0 1");
    let running = drive.machine().running().unwrap();
    assert_eq!(running.registers, [Register::Variable(0)]);
}

/// "Grant": how steps are spread over grants does not matter.
#[test]
fn two_grants_of_three() {
    let module = sample();
    let spread = |fuels: &[u32]| {
        let mut host = Host::axis();
        let mut drive = Drive::start(checked(&module));
        for fuel in fuels {
            drive.grant(&mut host, *fuel).unwrap();
        }
        (drive.machine().clone(), ports_of(&host))
    };
    let once = spread(&[6]);
    assert_eq!(spread(&[3, 3]), once);
    assert_eq!(spread(&[1, 2, 3]), once);
    assert_eq!(spread(&[1, 1, 1, 1, 1, 1]), once);
}

/// LAW.md, "Where each sentence is": two lists with the same history.
#[test]
fn two_lists_with_one_history() {
    let module = sample();
    let grant = |fuel| Call::Grant { fuel };
    let make = |calls: &[(Call, &str)]| {
        let mut host = Host::axis();
        let mut drive = Drive::start(checked(&module));
        for (call, answer) in calls {
            assert_eq!(text_of(drive.call(&mut host, *call)), *answer);
        }
        (drive.machine().clone(), marks_of(&drive), ports_of(&host))
    };
    let first = make(&[
        (grant(10_000), "6, ended"),
        (Call::Restart, "0, running"),
        (grant(2), "2, running"),
    ]);
    let second = make(&[
        (grant(0), "refused with 14"),
        (Call::Restart, "refused with 17"),
        (grant(5), "5, running"),
        (grant(5), "1, ended"),
        (grant(1), "refused with 15"),
        (Call::Restart, "0, running"),
        (grant(1), "1, running"),
        (grant(1), "1, running"),
    ]);
    assert_eq!(first, second);
}

/// WORKED.md, "The sample".
#[test]
fn any_fuel() {
    for (module, steps, ports) in [
        (sample(), 6, "1200, 50, 50, 50"),
        (steep(), 3, "0, 50, 0, 0"),
    ] {
        for fuel in (steps..200).chain([9_999, 10_000]) {
            let mut host = Host::axis();
            let mut drive = Drive::start(checked(&module));
            let answer = drive.grant(&mut host, fuel).unwrap();
            assert_eq!(answer.steps, steps);
            assert_ne!(answer.state, State::Running);
            assert_eq!(ports_of(&host), ports);
            assert_eq!(drive.faults(), if steps == 3 { 1 } else { 0 });
        }
    }
}

/// "The three calls": what a restart and a power cycle leave of memory, registers and host.
#[test]
fn memory_over_calls() {
    let rows = [def(0), def(77), (17, 1, 0, 1, 1), RET];
    let module = assemble(&[(0, 0, &rows)], &[1, 2, 3]);
    let sense = Port {
        value: 9,
        low: 0,
        high: 0,
        flag: Flag::Sense,
        rest: Some(4),
    };
    for call in [Call::Restart, Call::PowerCycle] {
        let mut host = Host::table(&[sense]);
        let mut drive = Drive::start(checked(&module));
        drive.grant(&mut host, 10_000).unwrap();
        // Memory stays after the end.
        assert_eq!(drive.machine().memory[..4], [1, 77, 3, 0]);
        drive.call(&mut host, call).unwrap();
        assert_eq!(drive.machine(), Drive::start(checked(&module)).machine());
        let value = if call == Call::Restart { 9 } else { 4 };
        assert_eq!(host.ports(), [Port { value, ..sense }]);
    }
}

/// MACHINE.md, "How fast", has a loop of seven steps a turn. 10,000 steps of it take less than a
/// millisecond; the quickest of some grants is measured, as the machine may be busy.
#[test]
fn ten_thousand_steps() {
    let first = [
        def(0),
        def(1),
        def(u32::MAX),
        NEW,
        NEW,
        (5, 3, 3, 1, 0),
        (17, 3, 0, 4, 0),
        (16, 4, 0, 4, 0),
        (22, 4, 3, 0, 1),
        (20, 3, 2, 0, 5),
        RET,
    ];
    let second = [(5, 0, 0, 1, 0), RET];
    let module = assemble(&[(0, 0, &first), (2, 1, &second)], &[]);
    let mut host = Host::axis();
    let mut drive = Drive::start(checked(&module));
    let times = (0..50).map(|_| {
        let begun = Instant::now();
        let answer = drive.grant(&mut host, 10_000).unwrap();
        assert_eq!(answer.steps, 10_000);
        begun.elapsed()
    });
    let quickest = times.min().unwrap();
    println!("10,000 steps took {quickest:?}");
    assert!(quickest.as_micros() < 1000);
}

/// A grant can end a run by its last step; a tick is a step (FORMAT.md, "Runs that end").
#[test]
fn the_last_step_ends() {
    let module = single(&[TICK, TICK, RET]);
    let mut host = Host::axis();
    let mut drive = Drive::start(checked(&module));
    let answer = drive.grant(&mut host, 3).unwrap();
    assert_eq!(text_of(Ok(answer)), "3, ended");
}

/// The listing of "Grant" and the table of WORKED.md, "The sample", have the sample's bytes.
#[test]
fn the_bytes_of_the_sample() {
    let page = common::blocks("DRIVE.md");
    let block = page.iter().find(|block| block.heading == "Grant");
    let Some(common::Content::Listing(listing)) = block.map(|block| &block.content) else {
        panic!("no listing");
    };
    assert_eq!(hex(listing), sample());
    let table = &tables("WORKED.md", "The sample")[0];
    let bytes = table.columns(["Bytes"]).concat().concat();
    assert_eq!(hex(&bytes), sample());
}

/// LAW.md, "The log": the table of entries, and that it follows the table of DRIVE.md.
#[test]
fn the_table_of_the_log() {
    let law = tables("LAW.md", "The log");
    let table = &law[1];
    let columns = ["After", "Entries", "Before the last cycle", "Since"];
    let mut marks_after = Vec::new();
    for [after, entries, before, since] in table.columns(columns) {
        let (mut b, mut s) = (Vec::new(), Vec::new());
        for entry in entries.split(", ") {
            if entry == "cycle" {
                b = std::mem::take(&mut s);
            } else {
                s.push(entry);
            }
        }
        let text = |list: &[&str]| match list {
            [] => "–".to_string(),
            list => list.join(", "),
        };
        assert_eq!(text(&b), before, "{after}");
        assert_eq!(text(&s), since, "{after}");
        let marks = [vec!["1"; b.len()], vec!["0"; s.len()]].concat();
        let none = marks.is_empty();
        marks_after.push(if none {
            "none".to_string()
        } else {
            marks.join(", ")
        });
    }
    // The rows of DRIVE.md after which the marks are these.
    let drive = &tables("DRIVE.md", "Faults over calls")[0];
    let documented = drive.columns(["Marks afterwards"]).concat();
    let rows = [0, 4, 5, 8, 9, 10].map(|row| documented[row]);
    assert_eq!(marks_after, rows);
}
