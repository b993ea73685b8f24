//! The tables and examples of INSTRUCTIONS.md, and of MACHINE.md where it speaks of steps.

mod common;

use common::{assemble, checked, def, hex, number, single, tables, Fields, Random, NEW, RET};
use compare::reading::drive::Drive;
use compare::reading::host::{Flag, Host, Port};
use compare::reading::instruction::{Instruction, Kind, Row, Span, Width};
use compare::reading::machine::{
    divide, memory_at, shift_left, shift_right_arithmetic, shift_right_logical, Cause, Register,
    State,
};
use compare::reading::module::Entry;
use compare::reading::refusal::Place;

fn row_of(fields: Fields) -> Row {
    let (op, a, b, c, n) = fields;
    Row { op, a, b, c, n }
}

fn eight(cell: &str) -> [u8; 8] {
    hex(cell).try_into().expect("a row has 8 bytes")
}

/// "Layout of an instruction".
#[test]
fn the_rows_of_the_examples() {
    let examples = [
        Instruction::New,
        Instruction::Def { value: 1200 },
        Instruction::Add { a: 0, b: 1, c: 2 },
        Instruction::Rem {
            a: 0,
            b: 1,
            c: 2,
            kind: Kind::SignedTowardsZero,
        },
        Instruction::Ld {
            a: 3,
            b: 0,
            width: Width::Four,
            offset: 256,
        },
        Instruction::Beq {
            a: 0,
            b: 1,
            target: 7,
        },
        Instruction::Call {
            a: 2,
            b: 0,
            routine: 1,
        },
        Instruction::Put { b: 1, port: 0 },
    ];
    let table = &tables("INSTRUCTIONS.md", "Layout of an instruction")[1];
    let rows = table.columns(["Instruction", "Bytes"]);
    assert_eq!(rows.len(), examples.len());
    for ([text, bytes], instruction) in rows.into_iter().zip(examples) {
        assert_eq!(Row::of(eight(bytes)).instruction(), Some(instruction));
        let name = format!("{instruction:?}").to_uppercase();
        let documented = text.split(',').next().unwrap();
        assert!(name.starts_with(documented), "{name}");
    }
}

/// "All instructions": each opcode, its name, and the fields that it names.
#[test]
fn the_fields_of_all_instructions() {
    let table = &tables("INSTRUCTIONS.md", "All instructions")[0];
    let rows = table.columns(["op", "hex", "Name", "Fields"]);
    assert_eq!(rows.len(), 27);
    for (opcode, [op, hexadecimal, name, fields]) in rows.into_iter().enumerate() {
        assert_eq!(number(op), opcode as u64);
        assert_eq!(hex(hexadecimal), [opcode as u8]);
        let op = opcode as u8;
        let width = if op == 16 || op == 17 { 1 } else { 0 };
        let instruction = row_of((op, 0, 0, width, 0)).instruction();
        let instruction = instruction.expect("it is well formed");
        let debug = format!("{instruction:?}").to_uppercase();
        assert_eq!(debug.split(' ').next(), Some(name));
        let named: Vec<&str> = fields.split(", ").collect();
        let is_formed = |fields| row_of(fields).instruction().is_some();
        assert_eq!(is_formed((op, 1, 0, width, 0)), named.contains(&"a"));
        assert_eq!(is_formed((op, 255, 0, width, 0)), named.contains(&"a"));
        assert_eq!(is_formed((op, 0, 1, width, 0)), named.contains(&"b"));
        assert_eq!(is_formed((op, 0, 255, width, 0)), named.contains(&"b"));
        assert_eq!(is_formed((op, 0, 0, 1, 0)), named.contains(&"c"));
        assert_eq!(is_formed((op, 0, 0, width, 1)), named.contains(&"n"));
        let any_c = named.contains(&"c") && width == 0;
        assert_eq!(is_formed((op, 0, 0, 255, 0)), any_c);
        let any_n = named.contains(&"n") && op != 8 && op != 9;
        assert_eq!(is_formed((op, 0, 0, width, 1 << 31)), any_n);
    }
}

/// "Well-formed rows".
#[test]
fn well_formed_rows() {
    let is_formed = |fields| row_of(fields).instruction().is_some();
    for op in 27..=255 {
        assert!(!is_formed((op, 0, 0, 0, 0)));
    }
    for op in [8, 9] {
        for n in 0..=300 {
            assert_eq!(is_formed((op, 0, 0, 0, n)), n <= 2);
        }
        assert!(!is_formed((op, 0, 0, 0, 1 << 24)));
    }
    for op in [16, 17] {
        for c in 0..=255 {
            assert_eq!(is_formed((op, 0, 0, c, 0)), [1, 2, 4].contains(&c));
        }
    }
}

/// "All instructions": what each reads and writes.
#[test]
fn the_registers_of_all_instructions() {
    // Routine 1 takes p registers and gives r back, as the table calls them.
    let entry = |arguments, results| Entry {
        offset: 0,
        count: 1,
        arguments,
        results,
    };
    let entries = [entry(0, 0), entry(3, 2)];
    let table = &tables("INSTRUCTIONS.md", "All instructions")[0];
    for [op, reads, writes] in table.columns(["op", "Reads", "Writes"]) {
        let op = number(op) as u8;
        let is_named = |a, b, c, n| row_of((op, a, b, c, n)).instruction();
        let candidates = [
            is_named(10, 20, 30, 1),
            is_named(10, 20, 4, 1),
            is_named(10, 20, 30, 0),
            is_named(10, 20, 0, 1),
            is_named(10, 20, 0, 0),
            is_named(10, 0, 30, 0),
            is_named(0, 20, 30, 0),
            is_named(10, 0, 0, 0),
            is_named(0, 0, 0, 1),
            is_named(0, 0, 0, 0),
        ];
        let instruction = candidates.into_iter().flatten().next().unwrap();
        let spans = |cell: &str| -> Vec<Span> {
            let span = |first, length| Span { first, length };
            match cell {
                "–" => vec![],
                "b to b + p − 1" => vec![span(20, 3)],
                "a to a + r − 1" => vec![span(10, 2)],
                cell => cell
                    .split(", ")
                    .map(|name| match name {
                        "a" => span(10, 1),
                        "b" => span(20, 1),
                        "c" => span(30, 1),
                        _ => panic!("{name}"),
                    })
                    .collect(),
            }
        };
        let flat =
            |spans: [Option<Span>; 2]| -> Vec<Span> { spans.into_iter().flatten().collect() };
        assert_eq!(flat(instruction.reads(&entries, 1)), spans(reads), "{op}");
        assert_eq!(flat(instruction.writes(&entries)), spans(writes), "{op}");
    }
}

/// The value of register 2 after rows of which the first two make registers 0 and 1.
fn result_of(b: u32, c: u32, row: Fields) -> u32 {
    let module = single(&[def(b), def(c), NEW, row, RET]);
    let mut drive = Drive::start(checked(&module));
    drive.grant(&mut Host::axis(), 4).unwrap();
    assert_eq!(drive.state(), State::Running);
    drive.register(2).unwrap()
}

/// "Division".
#[test]
fn the_table_of_divisions() {
    let table = &tables("INSTRUCTIONS.md", "Division")[1];
    let rows = table.columns(["Dividend", "Divisor", "n", "DIV", "REM"]);
    assert_eq!(rows.len(), 9);
    for cells in rows {
        let [dividend, divisor, n, quotient, remainder] = cells.map(|cell| number(cell) as u32);
        assert_eq!(result_of(dividend, divisor, (8, 2, 0, 1, n)), quotient);
        assert_eq!(result_of(dividend, divisor, (9, 2, 0, 1, n)), remainder);
        let division = divide(Kind::of(n).unwrap(), dividend, divisor).unwrap();
        assert_eq!(division.quotient, quotient);
        assert_eq!(division.remainder, remainder);
    }
    for n in 0..3 {
        let kind = Kind::of(n).unwrap();
        assert_eq!(divide(kind, 5, 0), Err(Cause::ZeroDivisor));
    }
}

/// "Division": what is said of the remainder, of words of all kinds.
#[test]
fn divisions_are_as_said() {
    let edges = [0, 1, 2, 3, 7, 1 << 31, (1 << 31) - 1, (1 << 31) + 1];
    let edges: Vec<u32> = edges
        .iter()
        .flat_map(|w: &u32| [*w, w.wrapping_neg()])
        .collect();
    let as_read = |kind, w: u32| match kind {
        Kind::Unsigned => i64::from(w),
        _ => i64::from(w as i32),
    };
    for kind in [
        Kind::Unsigned,
        Kind::SignedTowardsZero,
        Kind::SignedDownwards,
    ] {
        for dividend in &edges {
            for divisor in edges.iter().filter(|divisor| **divisor != 0) {
                let division = divide(kind, *dividend, *divisor).unwrap();
                let (b, c) = (as_read(kind, *dividend), as_read(kind, *divisor));
                let rest = as_read(kind, division.remainder);
                assert!(rest.abs() < c.abs());
                let sign_is_right = match kind {
                    Kind::Unsigned => rest >= 0,
                    Kind::SignedTowardsZero => rest == 0 || (rest < 0) == (b < 0),
                    Kind::SignedDownwards => rest == 0 || (rest < 0) == (c < 0),
                };
                assert!(sign_is_right);
                assert_eq!((b - rest) % c, 0);
                assert_eq!(division.quotient, ((b - rest) / c) as u32);
            }
        }
    }
}

/// "Shifts".
#[test]
fn the_table_of_shifts() {
    let table = &tables("INSTRUCTIONS.md", "Shifts")[0];
    let rows = table.columns(["R[b]", "R[c]", "SL", "SRL", "SRA"]);
    assert_eq!(rows.len(), 8);
    for cells in rows {
        let [b, c, sl, srl, sra] = cells.map(|cell| number(cell) as u32);
        assert_eq!(result_of(b, c, (13, 2, 0, 1, 0)), sl);
        assert_eq!(result_of(b, c, (14, 2, 0, 1, 0)), srl);
        assert_eq!(result_of(b, c, (15, 2, 0, 1, 0)), sra);
    }
    for c in 0..40 {
        for b in [0, 1, 0x1234_5678, 0x8765_4321, u32::MAX] {
            let whole = u64::from(b);
            assert_eq!(shift_left(b, c), (whole << c) as u32);
            assert_eq!(shift_right_logical(b, c), (whole >> c) as u32);
            let signed = i64::from(b as i32);
            assert_eq!(shift_right_arithmetic(b, c), (signed >> c) as u32);
        }
    }
}

/// Sums, differences, products, bits: "All instructions".
#[test]
fn words() {
    assert_eq!(result_of(u32::MAX, 2, (5, 2, 0, 1, 0)), 1);
    assert_eq!(result_of(1, 2, (6, 2, 0, 1, 0)), u32::MAX);
    assert_eq!(result_of(1 << 31, 2, (7, 2, 0, 1, 0)), 0);
    assert_eq!(result_of(65537, 65537, (7, 2, 0, 1, 0)), 131_073);
    assert_eq!(result_of(12, 10, (10, 2, 0, 1, 0)), 8);
    assert_eq!(result_of(12, 10, (11, 2, 0, 1, 0)), 14);
    assert_eq!(result_of(12, 10, (12, 2, 0, 1, 0)), 6);
}

/// "All instructions": the same register may be read and written.
#[test]
fn one_register_read_and_written() {
    let rows = [
        NEW,
        def(7),
        (3, 0, 1, 0, 0),
        (5, 0, 0, 0, 0),
        (4, 0, 0, 0, 0),
        RET,
    ];
    let module = single(&rows);
    let mut drive = Drive::start(checked(&module));
    drive.grant(&mut Host::axis(), 4).unwrap();
    assert_eq!(drive.register(0), Ok(14));
    drive.grant(&mut Host::axis(), 1).unwrap();
    assert_eq!(drive.register(0), Ok(14));
}

/// "Memory access": the table, for LD and for ST.
#[test]
fn the_table_of_accesses() {
    let image: Vec<u8> = (0..4096_u32).map(|k| (k * 7 + k / 256) as u8).collect();
    let table = &tables("INSTRUCTIONS.md", "Memory access")[0];
    let columns = ["Width", "R[b]", "n", "Address", "Outcome"];
    let rows = table.columns(columns);
    assert_eq!(rows.len(), 8);
    for [width, base, offset, address, outcome] in rows {
        let width = number(width) as usize;
        let base = number(base) as u32;
        let offset = number(offset) as u32;
        let address = number(address);
        assert_eq!(u64::from(base) + u64::from(offset), address);
        let stored = 0xA1B2_C3D4_u32;
        for op in [16, 17] {
            let rows = [def(base), def(stored), NEW, (3, 2, 1, 0, 0)];
            let access = (op, 2, 0, width as u8, offset);
            let module = assemble(&[(0, 0, &[&rows[..], &[access, RET]].concat())], &image);
            let mut drive = Drive::start(checked(&module));
            let answer = drive.grant(&mut Host::axis(), 5).unwrap();
            let mut memory = image.clone();
            if outcome.starts_with("trip") {
                let State::Tripped(trip) = answer.state else {
                    panic!("it does not trip");
                };
                let said = format!("trip {}, detail {}", trip.cause.number(), address);
                assert_eq!(said, outcome);
                assert_eq!(trip.cause.detail(), address);
                assert_eq!(trip.cause, Cause::MemoryPassed { address });
                assert_eq!(drive.register(2), Ok(stored));
            } else {
                let from = address as usize;
                let last = from + width - 1;
                assert_eq!(outcome, format!("bytes {from} to {last}"));
                assert_eq!(answer.state, State::Running);
                let mut bytes = [0; 4];
                bytes[..width].copy_from_slice(&image[from..=last]);
                if op == 16 {
                    assert_eq!(drive.register(2), Ok(u32::from_le_bytes(bytes)));
                } else {
                    memory[from..=last].copy_from_slice(&stored.to_le_bytes()[..width]);
                    assert_eq!(drive.register(2), Ok(stored));
                }
            }
            assert_eq!(drive.machine().memory[..], memory);
        }
    }
}

/// "Memory access": `44 33 22 11`.
#[test]
fn the_lowest_byte_stands_first() {
    for (width, value) in [(1, 68), (2, 13_124), (4, 287_454_020)] {
        let rows = [def(0), NEW, (16, 1, 0, width, 0), RET];
        let module = assemble(&[(0, 0, &rows)], &hex("44332211"));
        let mut drive = Drive::start(checked(&module));
        drive.grant(&mut Host::axis(), 3).unwrap();
        assert_eq!(drive.register(1), Ok(value));
    }
    let module = single(&[def(0), def(287_454_020), (17, 1, 0, 2, 0), RET]);
    let mut drive = Drive::start(checked(&module));
    drive.grant(&mut Host::axis(), 3).unwrap();
    assert_eq!(drive.machine().memory[..3], [0x44, 0x33, 0]);
}

/// WORKED.md, "Memory": at every address.
#[test]
fn loads_at_all_addresses() {
    for address in 0..10_000 {
        let answer = memory_at(address, 0, Width::Four);
        if address <= 4092 {
            assert_eq!(answer, Ok(address as usize));
        } else {
            let address = address.into();
            assert_eq!(answer, Err(Cause::MemoryPassed { address }));
        }
    }
    for width in [Width::One, Width::Two, Width::Four] {
        let address = 4_294_967_296;
        let answer = memory_at(u32::MAX, 1, width);
        assert_eq!(answer, Err(Cause::MemoryPassed { address }));
    }
}

/// WORKED.md, "Memory": three runs.
#[test]
fn three_runs_to_a_load() {
    let run = |base, offset| {
        let module = single(&[def(base), NEW, (16, 1, 0, 4, offset), RET]);
        let mut drive = Drive::start(checked(&module));
        let answer = drive.grant(&mut Host::axis(), 10_000).unwrap();
        let detail = match answer.state {
            State::Tripped(trip) => Some((trip.cause.number(), trip.cause.detail())),
            _ => None,
        };
        (answer.steps, detail)
    };
    assert_eq!(run(4092, 0), (4, None));
    assert_eq!(run(4093, 0), (3, Some((2, 4093))));
    assert_eq!(run(u32::MAX, 1), (3, Some((2, 4_294_967_296))));
}

/// Whether the branch is taken, where register 0 and 1 have these values.
fn is_taken(op: u8, first: u32, second: u32) -> bool {
    let rows = [def(first), def(second), (op, 0, 1, 0, 4), RET, RET];
    let module = single(&rows);
    let mut drive = Drive::start(checked(&module));
    drive.grant(&mut Host::axis(), 3).unwrap();
    drive.place().unwrap().instruction == 4
}

/// "Branches".
#[test]
fn branches() {
    assert!(is_taken(20, 1, u32::MAX));
    assert!(!is_taken(21, 1, u32::MAX));
    assert!(is_taken(21, u32::MAX, 1));
    assert!(!is_taken(20, u32::MAX, 1));
    assert!(is_taken(21, 1 << 31, (1 << 31) - 1));
    for op in [20, 21] {
        assert!(!is_taken(op, 5, 5));
        assert!(is_taken(op, 4, 5));
    }
    assert!(is_taken(19, 5, 5));
    assert!(!is_taken(19, 5, 1 << 31 | 5));
}

/// "CALL and RET": the example, with a routine that adds its arguments.
#[test]
fn a_call() {
    let callee: &[Fields] = &[(5, 0, 0, 1, 0), RET];
    let caller = [def(5), def(8), NEW, (22, 2, 0, 0, 1), RET];
    let module = assemble(&[(0, 0, &caller), (2, 1, callee)], &[]);
    let mut drive = Drive::start(checked(&module));
    let mut host = Host::axis();
    drive.grant(&mut host, 4).unwrap();
    let running = drive.machine().running().unwrap();
    assert_eq!(
        running.registers,
        [Register::Variable(5), Register::Variable(8)]
    );
    assert_eq!(
        running.place(),
        Place {
            routine: 1,
            instruction: 0
        }
    );
    drive.grant(&mut host, 1).unwrap();
    assert_eq!(drive.register(0), Ok(13));
    drive.grant(&mut host, 1).unwrap();
    let running = drive.machine().running().unwrap();
    assert_eq!(
        running.registers,
        [
            Register::Constant(5),
            Register::Constant(8),
            Register::Variable(13)
        ]
    );
    assert_eq!(running.instruction, 4);
}

/// "CALL and RET": results may come into the registers that held arguments.
#[test]
fn arguments_and_results_overlap() {
    // Routine 1 exchanges its three arguments: the last first.
    let callee: &[Fields] = &[(4, 0, 2, 0, 0), RET];
    let caller = [
        NEW,
        NEW,
        NEW,
        def(1),
        (5, 1, 3, 3, 0),
        (5, 2, 1, 3, 0),
        (22, 0, 0, 0, 1),
        RET,
    ];
    let module = assemble(&[(0, 0, &caller), (3, 3, callee)], &[]);
    let mut drive = Drive::start(checked(&module));
    drive.grant(&mut Host::axis(), 9).unwrap();
    let values: Vec<u32> = (0..4).map(|k| drive.register(k).unwrap()).collect();
    assert_eq!(values, [3, 2, 0, 1]);
}

/// "CALL and RET": a of RET is where the results are read, a of CALL where they are written.
#[test]
fn results_from_and_to_registers() {
    let callee = [def(10), def(20), def(30), def(40), (23, 2, 0, 0, 0)];
    let caller = [NEW, NEW, NEW, NEW, def(5), (22, 1, 0, 0, 1), RET];
    let module = assemble(&[(0, 0, &caller), (1, 3, &callee)], &[]);
    let mut drive = Drive::start(checked(&module));
    drive.grant(&mut Host::axis(), 11).unwrap();
    assert_eq!(
        drive.place(),
        Ok(Place {
            routine: 0,
            instruction: 6
        })
    );
    // Registers 2 to 4 of the callee are 20, 30 and 40, as register 0 is its argument.
    let values: Vec<u32> = (0..5).map(|k| drive.register(k).unwrap()).collect();
    assert_eq!(values, [0, 20, 30, 40, 5]);
}

/// "CALL and RET": RET in routine 0 ends the run, however many routines are nested.
#[test]
fn the_ret_of_routine_0_ends() {
    let first = [NEW, (22, 0, 0, 0, 1), RET];
    // Routine 1 calls routine 0, which goes on to call routine 1.
    let second = [(22, 0, 0, 0, 2), RET];
    let third = [(22, 0, 0, 0, 0), RET];
    let module = assemble(&[(0, 0, &first), (0, 0, &second), (0, 0, &third)], &[]);
    let mut drive = Drive::start(checked(&module));
    let answer = drive.grant(&mut Host::axis(), 10_000).unwrap();
    let State::Tripped(trip) = answer.state else {
        panic!("it nests for ever");
    };
    assert_eq!(trip.cause, Cause::TooDeep);
    assert_eq!(drive.machine().frames.len(), 32);

    // The same, but that routine 0 ends when it is called: memory tells the second time.
    let first = [
        def(0),
        def(1),
        NEW,
        (16, 2, 0, 1, 0),
        (17, 1, 0, 1, 0),
        (19, 2, 1, 0, 7),
        (22, 0, 0, 0, 1),
        RET,
    ];
    let module = assemble(&[(0, 0, &first), (0, 0, &second), (0, 0, &third)], &[]);
    let mut drive = Drive::start(checked(&module));
    let answer = drive.grant(&mut Host::axis(), 10_000).unwrap();
    assert_eq!(answer.state, State::Ended);
    assert_eq!(answer.steps, 7 + 2 + 7);
    assert_eq!(drive.machine().frames, []);
    assert_eq!(drive.byte(0), Ok(1));
}

/// "GET, PUT and TICK": the order of the tests of PUT, and a host of 256 ports.
#[test]
fn ports() {
    let port = Port {
        value: 7,
        low: 5,
        high: 9,
        flag: Flag::Order,
        rest: None,
    };
    let sense = Port {
        flag: Flag::Sense,
        ..port
    };
    // Over ports that are all absent, PUT trips with 4; at a sense port with 5, limits or none.
    let put = |rows: &[Port], value, c| {
        let module = single(&[def(value), (25, 0, 0, c, 0), RET]);
        let mut host = Host::table(rows);
        let mut drive = Drive::start(checked(&module));
        let answer = drive.grant(&mut host, 2).unwrap();
        let number = match answer.state {
            State::Tripped(trip) => {
                assert_eq!(trip.cause.layer().number(), 3);
                assert_eq!(trip.cause.detail(), u64::from(c));
                assert_eq!(host.ports(), Host::table(rows).ports());
                trip.cause.number()
            }
            _ => {
                assert_eq!(host.read(c.into()), Ok(value));
                0
            }
        };
        number
    };
    assert_eq!(put(&[], 7, 0), 4);
    assert_eq!(put(&[port], 7, 1), 4);
    assert_eq!(put(&[sense], 100, 0), 5);
    assert_eq!(put(&[sense], 7, 0), 5);
    for (value, number) in [(4, 6), (5, 0), (9, 0), (10, 6), (u32::MAX, 6)] {
        assert_eq!(put(&[port], value, 0), number);
        assert_eq!(put(&[port; 300], value, 255), number);
    }
    // GET reads order and sense ports.
    for (rows, value) in [(&[port, sense][..], Some(7)), (&[port][..], None)] {
        let module = single(&[NEW, (24, 0, 0, 1, 0), RET]);
        let mut drive = Drive::start(checked(&module));
        let answer = drive.grant(&mut Host::table(rows), 2).unwrap();
        match value {
            Some(value) => assert_eq!(drive.register(0), Ok(value)),
            None => assert!(matches!(answer.state, State::Tripped(_))),
        }
    }
}

/// MACHINE.md, "Trips": a step that trips changes the state, and nothing else.
#[test]
fn the_table_of_trips() {
    let too_deep = [NEW, def(0), (22, 0, 0, 0, 0), RET];
    let cases: [(&[Fields], u32, u8, u8, u64); 7] = [
        (&[NEW, def(0), (8, 0, 1, 1, 2), RET], 3, 1, 2, 0),
        (&[NEW, def(0), (9, 0, 1, 1, 0), RET], 3, 1, 2, 0),
        (&[NEW, def(4096), (17, 0, 1, 1, 5), RET], 3, 2, 2, 4101),
        (&too_deep, 96, 3, 2, 0),
        (&[NEW, def(0), (24, 0, 0, 200, 0), RET], 3, 4, 3, 200),
        (&[NEW, def(0), (25, 0, 1, 3, 0), RET], 3, 5, 3, 3),
        (&[NEW, def(0), (25, 0, 1, 1, 0), RET], 3, 6, 3, 1),
    ];
    for (rows, steps, cause, layer, detail) in cases {
        let module = single(rows);
        let mut host = Host::axis();
        let mut drive = Drive::start(checked(&module));
        drive.grant(&mut host, steps - 1).unwrap();
        let before = drive.machine().clone();
        let ports = host.ports().to_vec();
        assert_eq!(before.state, State::Running);
        let answer = drive.grant(&mut host, 1).unwrap();
        let State::Tripped(trip) = answer.state else {
            panic!("it does not trip");
        };
        assert_eq!(trip.cause.number(), cause);
        assert_eq!(trip.cause.layer().number(), layer);
        assert_eq!(trip.cause.detail(), detail);
        assert_eq!((trip.place.routine, trip.place.instruction), (0, 2));
        let after = drive.machine();
        assert_eq!(after.frames, before.frames);
        assert_eq!(after.memory, before.memory);
        assert_eq!(host.ports(), ports);
    }
}

/// MACHINE.md, "Trips": the table's causes and layers.
#[test]
fn causes_and_layers() {
    let table = &tables("MACHINE.md", "Trips")[0];
    let rows = table.columns(["Cause", "Layer", "Case"]);
    let layers: Vec<&str> = rows.iter().map(|[_, layer, _]| &layer[..1]).collect();
    assert_eq!(layers, ["2", "2", "2", "3"]);
    let address = 1;
    let causes = [
        Cause::ZeroDivisor,
        Cause::MemoryPassed { address },
        Cause::TooDeep,
    ];
    for (cause, [number, layer, case]) in causes.into_iter().zip(rows) {
        assert_eq!(cause.number().to_string(), number);
        assert!(layer.starts_with(&cause.layer().number().to_string()));
        assert!(format!("`{cause:?}`").starts_with(case.trim_end_matches('`')));
    }
}

/// MACHINE.md, "It never is stuck": modules at random that the check accepts. A step panics where
/// it has no rule, and where the running routine is not as the check foretold.
#[test]
fn never_stuck() {
    let mut random = Random(0x1234_5678_9ABC_DEF1);
    let mut accepted = 0;
    let mut states = [0; 3];
    for _ in 0..300_000 {
        let routines = 1 + random.below(3) as usize;
        let mut rows: Vec<(u8, u8, Vec<Fields>)> = Vec::new();
        for r in 0..routines {
            let mut body: Vec<Fields> = Vec::new();
            for _ in 0..random.below(4) {
                body.push(if random.below(2) == 0 {
                    NEW
                } else {
                    def(random.below(6) as u32)
                });
            }
            for _ in 0..random.below(6) {
                let op = random.below(27) as u8;
                let small = |random: &mut Random| random.below(4) as u8;
                let (a, b, c) = (small(&mut random), small(&mut random), small(&mut random));
                let n = random.below(6) as u32;
                let row = match op {
                    0 | 2 | 26 => (op, 0, 0, 0, 0),
                    1 => (op, 0, 0, 0, n),
                    3 | 4 => (op, a, b, 0, 0),
                    8 | 9 => (op, a, b, c, n % 3),
                    5..=15 => (op, a, b, c, 0),
                    16 | 17 => (op, a, b, [1, 2, 4][c as usize % 3], n),
                    18 => (op, 0, 0, 0, n),
                    19..=21 => (op, a, b, 0, n),
                    22 => (op, a, b, 0, n % routines as u32),
                    23 => (op, a, 0, 0, 0),
                    24 => (op, a, 0, c, 0),
                    _ => (op, 0, b, c, 0),
                };
                body.push(row);
            }
            body.push(RET);
            let (arguments, results) = if r == 0 {
                (0, 0)
            } else {
                (random.below(3), random.below(3))
            };
            rows.push((arguments as u8, results as u8, body));
        }
        let parts: Vec<common::Parts> = rows
            .iter()
            .map(|(p, r, body)| (*p, *r, &body[..]))
            .collect();
        let module = assemble(&parts, &[1, 2, 3]);
        let mut sheet = [compare::reading::module::Shape::default(); 4096];
        let opened = compare::reading::module::open(&module).unwrap();
        let Ok(module) = opened.into_checked(&mut sheet) else {
            continue;
        };
        accepted += 1;
        let mut drive = Drive::start(module);
        let answer = drive.grant(&mut Host::axis(), 200).unwrap();
        states[match answer.state {
            State::Running => 0,
            State::Ended => 1,
            State::Tripped(_) => 2,
        }] += 1;
    }
    println!("{accepted} accepted: {states:?} run on, ended, tripped");
    assert!(accepted > 1000 && states.iter().all(|some| *some > 100));
}
