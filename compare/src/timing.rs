//! How fast the reading is on a kernel of crates/timing, or what there is after some steps of it (docs/SPEED.md).
//!
//! `timing NAME MODULE` runs the module over a new axis, again and again 10,000 steps; of a kernel whose name begins with `check`
//! or `repack` it checks the module, or unpacks and packs it. It prints how fast that is. `timing NAME MODULE STEPS` makes so many
//! steps, and prints what there is then, as compare/baseline/engine.c does.

use compare::reading::drive::{Drive, MOST_FUEL};
use compare::reading::host::Host;
use compare::reading::instruction::Row;
use compare::reading::machine::{State, MEMORY};
use compare::reading::module::{open, Checked, Shape, MOST_INSTRUCTIONS};
use compare::reading::packing::{pack, unpack, Entry, Parts};
use compare::reading::refusal::Refusal;
use std::env;
use std::error::Error;
use std::fs;
use std::time::{Duration, Instant};

const ROUNDS: usize = 7;

/// A round is no shorter.
const SHORTEST: Duration = Duration::from_millis(200);

fn refused(refusal: Refusal) -> String {
    refusal.to_string()
}

fn checked(module: &[u8]) -> Result<Checked<'_>, String> {
    let mut sheet = [Shape::default(); MOST_INSTRUCTIONS];
    let opened = open(module).map_err(refused)?;
    opened.into_checked(&mut sheet).map_err(refused)
}

/// How often the work is done in a round, and the time of the best round.
fn best_round(mut work: impl FnMut()) -> (u32, Duration) {
    let mut round = |times| {
        let start = Instant::now();
        for _ in 0..times {
            work();
        }
        start.elapsed()
    };
    let mut times = 1;
    let mut best = round(times);
    while best < SHORTEST {
        times *= 2;
        best = round(times);
    }
    for _ in 1..ROUNDS {
        best = best.min(round(times));
    }
    (times, best)
}

fn print_speed(name: &str, (times, best): (u32, Duration), each: u32, unit: &str) {
    let done = f64::from(times) * f64::from(each);
    let seconds = best.as_secs_f64();
    let rate = done / seconds;
    let nanoseconds = 1e9 * seconds / done;
    println!("{name} {rate:.0} {unit}s/s {nanoseconds:.2} ns/{unit}");
}

fn measure_grants(name: &str, module: &[u8]) -> Result<(), String> {
    let mut drive = Drive::start(checked(module)?);
    let mut axis = Host::axis();
    let round = best_round(|| {
        let answer = drive.grant(&mut axis, MOST_FUEL);
        let all = answer.is_ok_and(|a| a.steps == MOST_FUEL && a.state == State::Running);
        assert!(all, "a grant did not make all its steps");
    });
    print_speed(name, round, MOST_FUEL, "step");
    Ok(())
}

fn measure_check(name: &str, module: &[u8]) -> Result<(), String> {
    checked(module)?;
    let mut sheet = [Shape::default(); MOST_INSTRUCTIONS];
    let round = best_round(|| {
        let answer = open(module).and_then(|opened| opened.check(&mut sheet));
        assert!(answer.is_ok(), "the check refused");
    });
    print_speed(name, round, 1, "module");
    Ok(())
}

fn measure_repack(name: &str, module: &[u8]) -> Result<(), String> {
    let checked = checked(module)?;
    let mut entries = [Entry {
        count: 0,
        arguments: 0,
        results: 0,
    }];
    let mut rows = [Row::of([0; 8]); MOST_INSTRUCTIONS];
    let mut output = vec![0; module.len()];
    let round = best_round(|| {
        let lengths = unpack(&checked, &mut entries, &mut rows);
        let (n, t) = lengths.expect("there is room");
        let parts = Parts {
            entries: &entries[..n],
            rows: &rows[..t],
            image: checked.image(),
        };
        let answer = pack(parts, &mut output);
        assert!(answer.is_ok(), "pack refused");
    });
    print_speed(name, round, 1, "module");
    Ok(())
}

/// So many steps, and fewer where the state leaves running.
fn make_steps(drive: &mut Drive, axis: &mut Host, wanted: u32) -> Result<u32, String> {
    let mut made = 0;
    while made < wanted && drive.state() == State::Running {
        let fuel = MOST_FUEL.min(wanted - made);
        made += drive.grant(axis, fuel).map_err(refused)?.steps;
    }
    Ok(made)
}

fn print_state(module: &[u8], wanted: u32) -> Result<(), String> {
    let mut drive = Drive::start(checked(module)?);
    let mut axis = Host::axis();
    let made = make_steps(&mut drive, &mut axis, wanted)?;
    println!("steps {made}");
    match drive.state() {
        State::Running => println!("running"),
        State::Ended => println!("ended"),
        State::Tripped(trip) => {
            let cause = trip.cause;
            let layer = cause.layer().number();
            println!("tripped {} {layer} {}", cause.number(), cause.detail());
        }
    }
    if let Ok(place) = drive.place() {
        println!("place {} {}", place.routine, place.instruction);
        let registers = (0..drive.depth()).map(|k| drive.register(k).map_err(refused));
        println!(
            "{}",
            line("registers", registers.collect::<Result<_, _>>()?)
        );
    }
    let ports = axis.ports().iter().map(|port| port.value).collect();
    println!("{}", line("ports", ports));
    let memory = (0..MEMORY).map(|k| (k as u64 + 1) * u64::from(drive.machine().memory[k]));
    println!("memory {}", memory.sum::<u64>());
    Ok(())
}

fn line(word: &str, values: Vec<u32>) -> String {
    let values = values.iter().map(|value| format!(" {value}"));
    word.to_string() + &values.collect::<String>()
}

fn main() -> Result<(), Box<dyn Error>> {
    let words: Vec<String> = env::args().skip(1).collect();
    match words.as_slice() {
        [name, path] if name.starts_with("check") => measure_check(name, &fs::read(path)?)?,
        [name, path] if name.starts_with("repack") => measure_repack(name, &fs::read(path)?)?,
        [name, path] => measure_grants(name, &fs::read(path)?)?,
        [_, path, steps] => print_state(&fs::read(path)?, steps.parse()?)?,
        _ => return Err("timing NAME MODULE [STEPS]".into()),
    }
    Ok(())
}
