//! The formats of EXCHANGE.md, byte by byte.

mod common;

use common::{def, hex, module_of, single, NEW, RET, TICK};
use compare::reading::exchange::{check, pack, run, unpack};
use std::time::Instant;

fn sample() -> Vec<u8> {
    let path = concat!(env!("CARGO_MANIFEST_DIR"), "/../samples/ramp.bin");
    std::fs::read(path).expect("the sample is there")
}

/// An answer of check, the rows that it filled or cleared, and rows as they were lent.
fn sheet(answer: &str, changed: &str, lent: usize) -> Vec<u8> {
    [hex(answer), hex(changed), vec![0xEE; 6 * lent]].concat()
}

const SHAPES: &str = "0000 00000000  0100 00000000  0200 02000000  0200 02000000  0200 02000000
     0200 02000000";

#[test]
fn a_check_that_accepts() {
    let accepted = "00 01000000 06000000 00000000";
    for more in [0, 1, 2, 20, 4090] {
        assert_eq!(
            check(&sample(), 6 + more),
            sheet(accepted, SHAPES, more),
            "{more}"
        );
    }
}

#[test]
fn a_sheet_that_is_too_short() {
    for rows in 0..6 {
        let too_short = sheet("01 0C 00 0000 0000", "", rows);
        assert_eq!(check(&sample(), rows), too_short);
    }
    // It comes before any rule.
    let breaks_9 = single(&[def(0), (3, 0, 0, 0, 0), RET]);
    for rows in 0..3 {
        let too_short = sheet("01 0C 00 0000 0000", "", rows);
        assert_eq!(check(&breaks_9, rows), too_short);
    }
}

#[test]
fn a_rule_that_is_broken() {
    let breaks_9 = single(&[def(0), (3, 0, 0, 0, 0), RET]);
    let cleared = "0000 00000000  0000 00000000  0000 00000000";
    for more in [0, 1, 2, 20, 4093] {
        assert_eq!(
            check(&breaks_9, 3 + more),
            sheet("01 09 01 0000 0100", cleared, more)
        );
    }
    assert_eq!(run(&breaks_9, &[], &[]), hex("01 09 01 0000 0100"));
}

#[test]
fn a_check_of_what_does_not_open() {
    let mut longer = sample();
    longer.push(0);
    for (module, answer) in [
        (vec![], "01 01 01 0000 0000"),
        (vec![0; 20], "01 02 01 0000 0000"),
        (vec![1; 20], "01 02 01 0000 0000"),
        (hex("01000000 0C00000000000000"), "01 03 01 0000 0000"),
        (longer, "01 04 01 0000 0000"),
    ] {
        for rows in [0, 1, 6, 7, 4096] {
            assert_eq!(check(&module, rows), sheet(answer, "", rows));
        }
    }
}

/// A sheet of more than 4,096 rows is taken for one of 4,096.
#[test]
fn a_sheet_that_is_longer_than_any() {
    let longest = single(&[RET; 4096]);
    let accepted = [hex("00 01000000 00100000 00000000"), vec![0; 6 * 4096]].concat();
    let too_short = sheet("01 0C 00 0000 0000", "", 4095);
    assert_eq!(check(&longest, 4095), too_short);
    for rows in [4096, 4097, usize::MAX] {
        assert_eq!(check(&longest, rows), accepted);
        assert_eq!(check(&sample(), rows), check(&sample(), 4096));
        assert_eq!(check(&[], rows), check(&[], 4096));
    }
}

#[test]
fn a_run_over_an_axis() {
    // Grant 4, restart, grant 10,001; the bytes of an incomplete call are ignored.
    let calls = hex("00 04000000  01 00000000  00 11270000  00 010000");
    let mut expected = hex("00
         03000000
         00 04000000 00
         01 11 00 0000 0000
         01 0E 00 0000 0000
         00
         00 0000 0400
         02 00000000 B0040000");
    expected.extend([0; 4096]);
    expected.extend(hex("00  0400 B0040000 32000000 32000000 32000000"));
    assert_eq!(run(&sample(), &[], &calls), expected);
}

#[test]
fn a_run_that_ends() {
    // Any kind from 2 on is a power cycle.
    for kind in [2, 3, 255] {
        let mut calls = hex("00 10270000");
        calls.extend([kind, 1, 2, 3, 4]);
        calls.extend(hex("00 06000000"));
        let mut expected = hex("00
             03000000
             00 06000000 01
             00 00000000 00
             00 06000000 01
             01
             01 12 00 0000 0000
             00");
        expected.extend([0; 4096]);
        expected.extend(hex("00  0400 B0040000 32000000 64000000 96000000"));
        assert_eq!(run(&sample(), &[], &calls), expected);
    }
}

#[test]
fn a_run_that_trips_over_a_table() {
    // LD of four bytes past memory: cause 2 of layer 2, detail 2^32.
    let module = single(&[def(u32::MAX), NEW, (16, 1, 0, 4, 1), RET]);
    let rows = hex("01
         05000000 01000000 09000000 00 01 07000000
         06000000 00000000 00000000 01 00 FFFFFFFF
         06000000");
    let calls = hex("00 0A000000  00 0A000000  02 00000000  00 02000000");
    let trip = "02 02 0000 0200 0000000001000000";
    let mut expected = hex(&format!(
        "00
         04000000
         00 03000000 02 {trip}
         01 10 00 0000 0000
         00 00000000 00
         00 02000000 00
         00
         00 0000 0200
         02 FFFFFFFF 00000000"
    ));
    expected.extend([0; 4096]);
    expected.extend(hex(&format!(
        "01 {trip} 01
         0200 07000000 06000000
         07000000 01000000 09000000 00 01 07000000
         06000000 00000000 00000000 01 00 00000000"
    )));
    assert_eq!(run(&module, &rows, &calls), expected);
}

#[test]
fn a_long_table() {
    let module = single(&[def(3), (25, 0, 0, 255, 0), RET]);
    let row = hex("01000000 00000000 05000000 00 01 02000000");
    let mut host = vec![1];
    for _ in 0..260 {
        host.extend(&row);
    }
    host.extend([9; 17]);
    // A power cycle rests the ports; then the module gives port 255 the value 3.
    let calls = hex("02 00000000  00 03000000");
    let out = run(&module, &host, &calls);
    let rows = &out[out.len() - 260 * 18..];
    let values: Vec<u8> = rows.chunks(18).map(|row| row[0]).collect();
    assert_eq!(values[..255], [2; 255]);
    assert_eq!(values[255], 3);
    assert_eq!(values[256..], [1; 4]);
    for (k, written) in rows.chunks(18).enumerate() {
        assert_eq!(written[1..], row[1..], "{k}");
    }
    let ports = &out[out.len() - 260 * 18 - 256 * 4 - 2..];
    assert_eq!(ports[..2], [0, 1]);
    assert_eq!(ports[2..6], [2, 0, 0, 0]);
    assert_eq!(ports[2 + 255 * 4..][..4], [3, 0, 0, 0]);
}

/// Of more than 256 calls the first 256 are made, refused ones among them.
#[test]
fn a_long_list_of_calls() {
    // A grant that ends, a restart, and a restart that is refused, again and again.
    let module = single(&[TICK, RET]);
    let pass = hex("00 02000000  01 00000000  01 00000000");
    let answers = hex("00 02000000 01  00 00000000 00  01 11 00 0000 0000");
    let length = [6, 6, 7];
    for calls in [0, 1, 2, 3, 254, 255, 256, 257, 258, 300, 1000] {
        let list = pass.repeat(400)[..5 * calls].to_vec();
        let made = calls.min(256);
        let written: usize = (0..made).map(|k| length[k % 3]).sum();
        let out = run(&module, &[], &list);
        assert_eq!(out[0], 0);
        assert_eq!(out[1..5], (made as u32).to_le_bytes(), "{calls}");
        assert_eq!(out[5..5 + written], answers.repeat(400)[..written]);
        // After a grant the drive has ended, and after a restart it runs.
        let state = u8::from(made % 3 == 1);
        assert_eq!(out[5 + written], state, "{calls}");
        // The bytes of an incomplete call are no call.
        let ragged = [&list[..], &[0; 4]].concat();
        assert_eq!(run(&module, &[], &ragged), out);
    }
}

/// What the 257th call would change stays.
#[test]
fn the_last_call_that_is_made() {
    // The module gives port 0 the value 3; a power cycle rests it.
    let module = single(&[def(3), (25, 0, 0, 0, 0), RET]);
    let cycle = hex("02 00000000");
    let grant = hex("00 03000000");
    for (before, value) in [(254, 3), (255, 3), (256, 0), (257, 0)] {
        let calls = [cycle.repeat(before), grant.clone()].concat();
        let out = run(&module, &[], &calls);
        assert_eq!(
            out[1..5],
            u32::to_le_bytes((before as u32 + 1).min(256)),
            "{before}"
        );
        assert_eq!(out[out.len() - 16], value, "{before}");
    }
}

#[test]
fn a_table_without_rows() {
    let module = single(&[RET]);
    let out = run(&module, &[1], &[]);
    assert_eq!(out.len(), 1 + 4 + 1 + 5 + 1 + 4096 + 1 + 2);
    assert_eq!(out[out.len() - 2..], [0, 0]);
}

/// A whole run, open and check included, of 10,000 steps; the quickest of some is measured.
#[test]
fn ten_thousand_steps() {
    let module = single(&[NEW, (26, 0, 0, 0, 0), (24, 0, 0, 2, 0), (18, 0, 0, 0, 1)]);
    let times = (0..50).map(|_| {
        let begun = Instant::now();
        let out = run(&module, &[], &hex("00 10270000"));
        assert_eq!(out[1..11], hex("01000000 00 10270000 00"));
        begun.elapsed()
    });
    let quickest = times.min().unwrap();
    println!("10,000 steps took {quickest:?}");
    assert!(quickest.as_micros() < 1000);
}

#[test]
fn an_unpack() {
    let smaller = module_of("FORMAT.md", "smaller");
    let rows = &smaller[20..108];
    let mut expected = hex("00  00 02000000 0B000000  0800 00 00  0300 02 01  EEEE EE EE");
    expected.extend(rows);
    expected.extend(hex("EE EE EE EE EEEEEEEE  DC 05 C8"));
    assert_eq!(unpack(&smaller, 3, 12), expected);
    // One row too few: all that was lent stays, and the image is there.
    let mut expected = hex("00  01 0D 00 0000 0000  EEEE EE EE  EEEE EE EE");
    expected.extend([0xEE; 80]);
    expected.extend(hex("DC 05 C8"));
    assert_eq!(unpack(&smaller, 2, 10), expected);
    // A module that is refused is not unpacked.
    assert_eq!(unpack(&[], 2, 2), hex("01 01 01 0000 0000"));
}

#[test]
fn a_pack() {
    let smaller = module_of("FORMAT.md", "smaller");
    let entries = hex("0800 00 00  0300 02 01");
    let (rows, image) = smaller[20..].split_at(88);
    let mut expected = hex("00 6F000000");
    expected.extend(&smaller);
    expected.extend(hex("EE EE"));
    assert_eq!(pack(&entries, rows, image, 113), expected);
    // The bytes of an incomplete entry or instruction are ignored.
    let ragged = [&entries[..], &[1, 2, 3]].concat();
    let rows_ragged = [rows, &[7; 7]].concat();
    assert_eq!(pack(&ragged, &rows_ragged, image, 113), expected);
    assert_eq!(
        pack(&entries, rows, image, 110),
        [hex("01 0D 00 0000 0000"), vec![0xEE; 110]].concat()
    );
    assert_eq!(
        pack(&entries, &rows[8..], image, 3),
        hex("01 03 01 0100 0000  EE EE EE")
    );
}
