//! What the engine and the reading exchange (EXCHANGE.md). All numbers have their lowest byte
//! first.

use super::drive::{Answer, Call, Drive};
use super::host::{Flag, Host, Port};
use super::instruction::Row;
use super::machine::{State, Trip};
use super::module::{open, Opened, Shape, MOST_INSTRUCTIONS};
use super::packing::{self, Entry, Parts};
use super::refusal::{Place, Refusal};

/// The length of a row of a table, of a call, of an entry and of an instruction.
const ROW: usize = 18;
const CALL: usize = 5;
const ENTRY: usize = 4;
const INSTRUCTION: usize = 8;

/// All bytes of what is lent to be written to.
const LENT: u8 = 0xEE;

/// A row of a sheet that is lent.
const LENT_SHAPE: Shape = Shape {
    depth: u16::from_le_bytes([LENT; 2]),
    mask: u32::from_le_bytes([LENT; 4]),
};

/// What the engine has room for: of a longer list so many calls are made, and a longer sheet is
/// taken for one of so many rows.
const MOST_CALLS: usize = 256;
const MOST_SHAPES: usize = MOST_INSTRUCTIONS;

/// The answer of open and check for the bytes of a module, over a sheet of so many rows, and the
/// sheet as it is then.
pub fn check(module: &[u8], rows: usize) -> Vec<u8> {
    let mut sheet = vec![LENT_SHAPE; rows.min(MOST_SHAPES)];
    let mut out = Vec::new();
    let answer = checked(module, &mut sheet);
    if let Some(opened) = put_answered(&mut out, answer) {
        for count in [
            opened.routines(),
            opened.instructions(),
            opened.image_length(),
        ] {
            put32(&mut out, count as u32);
        }
    }
    for shape in sheet {
        put16(&mut out, shape.depth);
        put32(&mut out, shape.mask);
    }
    out
}

/// Puts 0 and gives what was answered, or puts 1 and the refusal.
fn put_answered<T>(out: &mut Vec<u8>, answer: Result<T, Refusal>) -> Option<T> {
    match answer {
        Ok(answered) => {
            out.push(0);
            Some(answered)
        }
        Err(refusal) => {
            out.push(1);
            put_refusal(out, refusal);
            None
        }
    }
}

fn checked<'a>(module: &'a [u8], sheet: &mut [Shape]) -> Result<Opened<'a>, Refusal> {
    let opened = open(module)?;
    opened.check(sheet)?;
    Ok(opened)
}

/// What comes of these calls to a drive of the module, over the host, and how both are then.
pub fn run(module: &[u8], host: &[u8], calls: &[u8]) -> Vec<u8> {
    let mut sheet = vec![Shape::default(); MOST_INSTRUCTIONS];
    let mut out = Vec::new();
    let answer = open(module).and_then(|opened| opened.into_checked(&mut sheet));
    if let Some(checked) = put_answered(&mut out, answer) {
        let mut rows = table_rows(host);
        let mut host = match &rows {
            Some(rows) => Host::table(rows),
            None => Host::axis(),
        };
        let mut drive = Drive::start(checked);
        let calls = calls.chunks_exact(CALL).map(call_of).take(MOST_CALLS);
        let answers: Vec<_> = calls.map(|call| drive.call(&mut host, call)).collect();
        put32(&mut out, answers.len() as u32);
        for answer in answers {
            put_answer(&mut out, answer);
        }
        put_drive(&mut out, &drive);
        put16(&mut out, host.ports().len() as u16);
        for port in host.ports() {
            put32(&mut out, port.value);
        }
        if let Some(rows) = &mut rows {
            let ports = host.ports();
            rows[..ports.len()].copy_from_slice(ports);
            for row in rows {
                put_row(&mut out, row);
            }
        }
    }
    out
}

/// What comes of unpacking a module into so many entries and rows.
pub fn unpack(module: &[u8], entries: usize, rows: usize) -> Vec<u8> {
    let mut sheet = vec![Shape::default(); MOST_INSTRUCTIONS];
    let mut entries = vec![entry_of(&[LENT; ENTRY]); entries];
    let mut rows = vec![Row::of([LENT; INSTRUCTION]); rows];
    let mut out = Vec::new();
    let answer = open(module).and_then(|opened| opened.into_checked(&mut sheet));
    if let Some(checked) = put_answered(&mut out, answer) {
        let answer = packing::unpack(&checked, &mut entries, &mut rows);
        if let Some((n, t)) = put_answered(&mut out, answer) {
            put32(&mut out, n as u32);
            put32(&mut out, t as u32);
        }
        for entry in entries {
            put16(&mut out, entry.count);
            out.extend([entry.arguments, entry.results]);
        }
        for row in rows {
            out.extend([row.op, row.a, row.b, row.c]);
            put32(&mut out, row.n);
        }
        out.extend(checked.image());
    }
    out
}

/// What comes of packing entries, instructions and an image into an output of so many bytes.
pub fn pack(entries: &[u8], rows: &[u8], image: &[u8], size: usize) -> Vec<u8> {
    let entries: Vec<Entry> = entries.chunks_exact(ENTRY).map(entry_of).collect();
    let rows: Vec<Row> = rows.chunks_exact(INSTRUCTION).map(instruction_of).collect();
    let parts = Parts {
        entries: &entries,
        rows: &rows,
        image,
    };
    let mut output = vec![LENT; size];
    let mut out = Vec::new();
    let answer = packing::pack(parts, &mut output);
    if let Some(length) = put_answered(&mut out, answer) {
        put32(&mut out, length as u32);
    }
    out.extend(output);
    out
}

/// The rows of a table, or none for an axis. Any first byte makes a table.
fn table_rows(host: &[u8]) -> Option<Vec<Port>> {
    let (_, rows) = host.split_first()?;
    Some(rows.chunks_exact(ROW).map(row_of).collect())
}

fn number32(bytes: &[u8], at: usize) -> u32 {
    u32::from_le_bytes([bytes[at], bytes[at + 1], bytes[at + 2], bytes[at + 3]])
}

/// Any flag but 0 is taken for sense, and any byte but 0 for having a rest value.
fn row_of(bytes: &[u8]) -> Port {
    Port {
        value: number32(bytes, 0),
        low: number32(bytes, 4),
        high: number32(bytes, 8),
        flag: match bytes[12] {
            0 => Flag::Order,
            _ => Flag::Sense,
        },
        rest: match bytes[13] {
            0 => None,
            _ => Some(number32(bytes, 14)),
        },
    }
}

fn call_of(bytes: &[u8]) -> Call {
    match bytes[0] {
        0 => Call::Grant {
            fuel: number32(bytes, 1),
        },
        1 => Call::Restart,
        _ => Call::PowerCycle,
    }
}

fn entry_of(bytes: &[u8]) -> Entry {
    Entry {
        count: u16::from_le_bytes([bytes[0], bytes[1]]),
        arguments: bytes[2],
        results: bytes[3],
    }
}

fn instruction_of(bytes: &[u8]) -> Row {
    let mut row = [0; INSTRUCTION];
    row.copy_from_slice(bytes);
    Row::of(row)
}

fn put16(out: &mut Vec<u8>, number: u16) {
    out.extend(number.to_le_bytes());
}

fn put32(out: &mut Vec<u8>, number: u32) {
    out.extend(number.to_le_bytes());
}

fn put_place(out: &mut Vec<u8>, place: Place) {
    put16(out, place.routine);
    put16(out, place.instruction);
}

fn put_refusal(out: &mut Vec<u8>, refusal: Refusal) {
    out.push(refusal.number());
    out.push(refusal.layer().number());
    put_place(out, refusal.place());
}

fn put_trip(out: &mut Vec<u8>, trip: Trip) {
    out.push(trip.cause.number());
    out.push(trip.cause.layer().number());
    put_place(out, trip.place);
    out.extend(trip.cause.detail().to_le_bytes());
}

fn put_state(out: &mut Vec<u8>, state: State) {
    match state {
        State::Running => out.push(0),
        State::Ended => out.push(1),
        State::Tripped(trip) => {
            out.push(2);
            put_trip(out, trip);
        }
    }
}

fn put_answer(out: &mut Vec<u8>, answer: Result<Answer, Refusal>) {
    match answer {
        Ok(answer) => {
            out.push(0);
            put32(out, answer.steps);
            put_state(out, answer.state);
        }
        Err(refusal) => {
            out.push(1);
            put_refusal(out, refusal);
        }
    }
}

fn put_drive(out: &mut Vec<u8>, drive: &Drive) {
    put_state(out, drive.state());
    match drive.place() {
        Ok(place) => {
            out.push(0);
            put_place(out, place);
        }
        Err(refusal) => {
            out.push(1);
            put_refusal(out, refusal);
        }
    }
    let depth = drive.depth();
    out.push(depth as u8);
    for k in 0..depth {
        put32(out, drive.register(k).expect("it is below the depth"));
    }
    out.extend(drive.machine().memory);
    out.push(drive.faults() as u8);
    for i in 0..drive.faults() {
        let fault = drive.fault(i).expect("it is in the list");
        put_trip(out, fault.trip);
        out.push(fault.marked.into());
    }
}

fn put_row(out: &mut Vec<u8>, row: &Port) {
    put32(out, row.value);
    put32(out, row.low);
    put32(out, row.high);
    out.push(match row.flag {
        Flag::Order => 0,
        Flag::Sense => 1,
    });
    out.push(row.rest.is_some().into());
    put32(out, row.rest.unwrap_or(0));
}
