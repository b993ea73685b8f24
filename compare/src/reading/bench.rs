//! What the program `bench` prints (docs/FORMAT.md, "What bench prints").

use super::drive::{Drive, MOST_FUEL};
use super::host::Host;
use super::machine::State;
use super::module::{open, Shape, MOST_INSTRUCTIONS};
use super::refusal::Refusal;

/// The text that bench prints for these bytes.
pub fn printed(bytes: &[u8]) -> String {
    match run(bytes) {
        Ok(text) => text,
        Err(refusal) => format!("{refusal}\n"),
    }
}

fn run(bytes: &[u8]) -> Result<String, Refusal> {
    let mut sheet = [Shape::default(); MOST_INSTRUCTIONS];
    let mut drive = Drive::start(open(bytes)?.into_checked(&mut sheet)?);
    let mut axis = Host::axis();
    let answer = drive.grant(&mut axis, MOST_FUEL)?;
    let state = match answer.state {
        State::Running => "running",
        State::Ended => "ended",
        State::Tripped(_) => "tripped",
    };
    let mut text = format!("{state} {}\n", answer.steps);
    for (number, port) in axis.ports().iter().enumerate() {
        text += &format!("port {number} {}\n", port.value);
    }
    for i in 0..drive.faults() {
        let fault = drive.fault(i)?;
        let cause = fault.trip.cause;
        let place = fault.trip.place;
        text += &format!(
            "fault {} {} {} {} {} {}\n",
            cause.number(),
            cause.layer().number(),
            place.routine,
            place.instruction,
            cause.detail(),
            u8::from(fault.marked)
        );
    }
    Ok(text)
}
