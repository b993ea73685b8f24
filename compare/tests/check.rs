//! Open, check and the sheet: the examples of CHECK.md, FORMAT.md, PACKING.md and REFUSALS.md that
//! are not of bench.

mod common;

use common::{
    answer_of_check, assemble, def, hex, module_of, number, single, tables, Fields, NEW, RET, TICK,
};
use compare::reading::instruction::Row;
use compare::reading::module::{open, Shape};
use compare::reading::refusal::{Place, Refusal};

const BEFORE: Shape = Shape {
    depth: 77,
    mask: 7777,
};

/// The shapes of the worked example.
fn shapes_of_loop() -> Vec<Shape> {
    let tables = tables("CHECK.md", "A worked example");
    let rows = tables[0].columns(["Depth", "Mask"]);
    let shapes = rows.iter().map(|[depth, mask]| Shape {
        depth: number(depth) as u16,
        mask: number(mask) as u32,
    });
    shapes.collect()
}

#[test]
fn the_worked_example() {
    let module = module_of("CHECK.md", "loop");
    assert_eq!(module.len(), 92);
    let opened = open(&module).unwrap();
    let shapes = shapes_of_loop();
    assert_eq!(shapes.len(), 10);

    let mut sheet = [BEFORE; 12];
    assert_eq!(opened.check(&mut sheet), Ok(()));
    assert_eq!(sheet[..10], shapes);
    assert_eq!(sheet[10..], [BEFORE; 2]);

    let mut sheet = [BEFORE; 10];
    assert_eq!(opened.check(&mut sheet), Ok(()));
    assert_eq!(sheet[..], shapes);

    let mut sheet = [BEFORE; 9];
    assert_eq!(opened.check(&mut sheet), Err(Refusal::Sheet));
    assert_eq!(sheet, [BEFORE; 9]);
}

#[test]
fn the_rows_of_the_worked_example() {
    let module = module_of("CHECK.md", "loop");
    let tables = tables("CHECK.md", "A worked example");
    for [row, bytes] in tables[0].columns(["Row", "Bytes"]) {
        let from = 12 + 8 * number(row) as usize;
        assert_eq!(module[from..from + 8], hex(bytes));
    }
}

/// Over a sheet of 12 rows each refusal clears rows 0 to 9 and keeps rows 10 and 11.
#[test]
fn the_changed_worked_examples() {
    let module = module_of("CHECK.md", "loop");
    let tables = tables("CHECK.md", "A worked example");
    let columns = ["Instruction", "New bytes", "bench prints"];
    let mut refused = 0;
    for [instruction, new, prints] in tables[1].columns(columns) {
        let mut changed = module.clone();
        let from = 12 + 8 * number(instruction) as usize;
        changed[from..from + 8].copy_from_slice(&hex(new));
        let mut sheet = [BEFORE; 12];
        let answer = open(&changed).unwrap().check(&mut sheet);
        assert_eq!(sheet[10..], [BEFORE; 2]);
        match answer {
            Ok(()) => assert!(!prints.contains("refused")),
            Err(refusal) => {
                refused += 1;
                assert_eq!(format!("`{refusal}`"), prints);
                assert_eq!(sheet[..10], [Shape::default(); 10]);
            }
        }
    }
    assert_eq!(refused, 10);
}

/// CHECK.md, "One smallest module for each rule" and "Fine points", and REFUSALS.md, "What holds
/// after a refusal": a broken rule clears the first T rows and keeps the others, and a 12 keeps
/// all. `into_checked` leaves the sheet as check does.
#[test]
fn what_sheets_hold_after_check() {
    let mut broken = [0; 12];
    for heading in ["One smallest module for each rule", "Fine points"] {
        for [bytes, prints] in tables("CHECK.md", heading)[0].columns(["Module", "bench prints"]) {
            let module = hex(bytes);
            let opened = open(&module).unwrap();
            let t = opened.instructions();
            for rows in (0..t + 4).chain([4095, 4096, 5000]) {
                // Each row is another one before.
                let before: Vec<Shape> = (0..rows)
                    .map(|k| Shape {
                        depth: 1000 + k as u16,
                        mask: !(k as u32),
                    })
                    .collect();
                let mut sheet = before.clone();
                let answer = opened.check(&mut sheet);
                let mut taken = before.clone();
                let of_taking = opened.clone().into_checked(&mut taken);
                assert_eq!(of_taking.map(|_| ()), answer);
                assert_eq!(taken, sheet);
                if rows < t {
                    assert_eq!(answer, Err(Refusal::Sheet));
                    assert_eq!(sheet, before);
                    continue;
                }
                assert_eq!(sheet[t..], before[t..]);
                match answer {
                    Ok(()) => assert!(!prints.contains("refused")),
                    Err(refusal) => {
                        assert_eq!(format!("`{refusal}`"), prints);
                        assert_eq!(sheet[..t], vec![Shape::default(); t]);
                        broken[usize::from(refusal.number())] += 1;
                    }
                }
            }
        }
    }
    assert!(broken[5..].iter().all(|count| *count > 0), "{broken:?}");
}

/// CHECK.md, "The sheet": what it holds before makes no difference to the answer, nor to the rows
/// that check writes.
#[test]
fn what_a_sheet_holds_before() {
    let modules = [
        module_of("CHECK.md", "loop"),
        single(&[def(0), (3, 0, 0, 0, 0), RET]),
    ];
    for module in modules {
        let opened = open(&module).unwrap();
        let mut after = [Shape::default(); 10];
        let answer = opened.check(&mut after);
        for row in [
            BEFORE,
            Shape {
                depth: u16::MAX,
                mask: u32::MAX,
            },
        ] {
            let mut sheet = [row; 10];
            assert_eq!(opened.check(&mut sheet), answer);
            let t = opened.instructions();
            assert_eq!(sheet[..t], after[..t]);
        }
        // Nor does what an earlier check left.
        assert_eq!(opened.check(&mut after), answer);
    }
}

/// FORMAT.md: T is 11 and D is 3 of the second module; what open shows of it.
#[test]
fn what_open_shows() {
    let module = module_of("FORMAT.md", "smaller");
    let opened = open(&module).unwrap();
    assert_eq!(module.len(), 111);
    assert_eq!(opened.bytes(), module);
    assert_eq!(opened.routines(), 2);
    assert_eq!(opened.instructions(), 11);
    assert_eq!(opened.image_length(), 3);
    assert_eq!(opened.image(), [0xDC, 0x05, 0xC8]);
    let entry = opened.entries()[1];
    assert_eq!(
        (entry.offset, entry.count, entry.arguments, entry.results),
        (84, 3, 2, 1)
    );
}

/// PACKING.md, "Example: unpack": the rows of the second module.
#[test]
fn the_rows_that_unpack_gives() {
    let module = module_of("FORMAT.md", "smaller");
    let opened = open(&module).unwrap();
    let tables = tables("PACKING.md", "Example: unpack");
    let columns = ["Routine", "Instruction", "op", "a", "b", "c", "n"];
    let mut rows = 0;
    for cells in tables[0].columns(columns) {
        if cells[0] == "–" {
            continue;
        }
        let [r, i, op, a, b, c, n] = cells.map(number);
        let row = Row {
            op: op as u8,
            a: a as u8,
            b: b as u8,
            c: c as u8,
            n: n as u32,
        };
        assert_eq!(opened.row(r as usize, i as usize), row);
        rows += 1;
    }
    assert_eq!(rows, 11);
}

/// PACKING.md, "Example: pack": the changes after which the bytes open and check refuses them.
#[test]
fn packed_modules_that_check_refuses() {
    let first: [Fields; 8] = [
        NEW,
        NEW,
        def(0),
        (16, 0, 2, 2, 0),
        (16, 1, 2, 1, 2),
        (22, 0, 0, 0, 1),
        (25, 0, 0, 0, 0),
        RET,
    ];
    let second: [Fields; 3] = [(20, 0, 1, 0, 2), (3, 0, 1, 0, 0), RET];
    let image = [0xDC, 0x05, 0xC8];
    let whole =
        |first: &[Fields], second: &[Fields]| assemble(&[(0, 0, first), (2, 1, second)], &image);
    assert_eq!(whole(&first, &second), module_of("FORMAT.md", "smaller"));

    let mut changed = first;
    changed[5].4 = 2;
    assert_eq!(answer_of_check(&whole(&changed, &second)), "7 0 5");
    let mut changed = second;
    changed[1].2 = 2;
    assert_eq!(answer_of_check(&whole(&first, &changed)), "8 1 1");
    let mut changed = second;
    changed[0].4 = 3;
    assert_eq!(answer_of_check(&whole(&first, &changed)), "10 1 0");
    let longer = [&first[7..], &second[..]].concat();
    assert_eq!(answer_of_check(&whole(&first[..7], &longer)), "11 0 6");
}

/// REFUSALS.md, "All refusals".
#[test]
fn the_numbers_of_refusals() {
    let place = Place {
        routine: 3,
        instruction: 5,
    };
    let all = [
        Refusal::Truncated,
        Refusal::Counts,
        Refusal::Entry { routine: 3 },
        Refusal::Length,
        Refusal::Form(place),
        Refusal::Stack(place),
        Refusal::Callee(place),
        Refusal::Register(place),
        Refusal::Constant(place),
        Refusal::Target(place),
        Refusal::Ending(place),
        Refusal::Sheet,
        Refusal::Room,
        Refusal::Fuel,
        Refusal::Ended,
        Refusal::Tripped,
        Refusal::Running,
        Refusal::Absent,
    ];
    let tables = tables("REFUSALS.md", "All refusals");
    let rows = tables[0].columns(["Number", "Layer", "Case", "Place"]);
    assert_eq!(rows.len(), all.len());
    for ([number, layer, case, documented], refusal) in rows.into_iter().zip(all) {
        assert_eq!(refusal.number().to_string(), number);
        assert_eq!(refusal.layer().number().to_string(), layer);
        assert!(format!("`{refusal:?}").starts_with(case.trim_end_matches('`')));
        let text = match documented {
            "none" => format!("refused {number} 0 0"),
            _ if number == "3" => "refused 3 3 0".to_string(),
            _ => format!("refused {number} 3 5"),
        };
        assert_eq!(refusal.to_string(), text);
    }
}

/// FORMAT.md, "Smallest and largest module".
#[test]
fn the_smallest_and_the_largest_module() {
    assert_eq!(single(&[RET]).len(), 20);
    assert_eq!(answer_of_check(&single(&[RET])), "accepted");
    let rows = [RET; 64];
    let routines = [(0, 0, &rows[..]); 64];
    let mut largest = assemble(&routines, &[0; 4096]);
    assert_eq!(largest.len(), 37_380);
    assert_eq!(answer_of_check(&largest), "accepted");
    largest.push(0);
    assert_eq!(answer_of_check(&largest), "4 0 0");
    largest.extend([0xFF; 1000]);
    assert_eq!(answer_of_check(&largest), "4 0 0");
}

/// CHECK.md, rule 6, and "Two longer ones" under "Fine points".
#[test]
fn thirty_two_registers() {
    let with_ret = |mut rows: Vec<Fields>| {
        rows.push(RET);
        single(&rows)
    };
    for row in [NEW, def(5)] {
        assert_eq!(answer_of_check(&with_ret(vec![row; 32])), "accepted");
        assert_eq!(answer_of_check(&with_ret(vec![row; 33])), "6 0 32");
        assert_eq!(answer_of_check(&with_ret(vec![row; 4000])), "6 0 32");
    }
    let prints = compare::reading::bench::printed(&with_ret(vec![NEW; 32]));
    assert_eq!(
        prints,
        "ended 33\nport 0 0\nport 1 50\nport 2 0\nport 3 0\n"
    );
    // The mask has bit 31 for the last of 32 constants.
    let module = with_ret(vec![def(5); 32]);
    let mut sheet = [BEFORE; 33];
    assert_eq!(open(&module).unwrap().check(&mut sheet), Ok(()));
    assert_eq!(
        sheet[32],
        Shape {
            depth: 32,
            mask: u32::MAX
        }
    );
}

/// WORKED.md, "The rules of check".
#[test]
fn worked_cases() {
    let answer = |rows: &[Fields]| answer_of_check(&single(rows));
    assert_eq!(answer(&[def(7), (3, 0, 0, 0, 0), RET]), "9 0 1");
    for branch in [19, 20, 21] {
        assert_eq!(answer(&[NEW, (branch, 0, 0, 0, 3), NEW, RET]), "10 0 1");
    }
    assert_eq!(answer(&[NEW, (18, 0, 0, 0, 3), NEW, RET]), "10 0 1");
    assert_eq!(answer(&[NEW, RET, (3, 0, 0, 0, 0), RET]), "accepted");
    let past_bal = [NEW, (18, 0, 0, 0, 1), (3, 0, 0, 0, 0), RET];
    assert_eq!(answer(&past_bal), "accepted");
}

/// WORKED.md, "Opening", and FORMAT.md, test 2.
#[test]
fn counts() {
    for n in 0..=u16::MAX {
        let [low, high] = n.to_le_bytes();
        let number = open(&[low, high, 0, 0, 1, 2, 3]).unwrap_err().number();
        let is_right = (1..=64).contains(&n);
        assert_eq!(number, if is_right { 1 } else { 2 });
        let [low, high] = n.to_le_bytes();
        let number = open(&[1, 0, low, high]).unwrap_err().number();
        assert_eq!(number, if n <= 4096 { 1 } else { 2 });
    }
}

/// CHECK.md, rule 11: the place is that of the last instruction, and only BAL and RET close a
/// routine.
#[test]
fn endings() {
    for branch in [19, 20, 21] {
        let rows = [NEW, (branch, 0, 0, 0, 1)];
        assert_eq!(answer_of_check(&single(&rows)), "11 0 1");
    }
    assert_eq!(answer_of_check(&single(&[NEW, TICK, TICK])), "11 0 2");
}

/// CHECK.md, rule 10: n is a word, and the target is in the same routine.
#[test]
fn targets() {
    let far = [(18, 0, 0, 0, u32::MAX)];
    assert_eq!(answer_of_check(&single(&far)), "10 0 0");
    let other: &[Fields] = &[RET, RET, RET];
    let module = assemble(&[(0, 0, &[(18, 0, 0, 0, 2), RET]), (0, 0, other)], &[]);
    assert_eq!(answer_of_check(&module), "10 0 0");
}

/// CHECK.md, rule 7: n is a word.
#[test]
fn callees() {
    for n in [2, 3, 256, 65536, u32::MAX] {
        let module = assemble(&[(0, 0, &[(22, 0, 0, 0, n), RET]), (0, 0, &[RET])], &[]);
        assert_eq!(answer_of_check(&module), "7 0 0");
    }
}

/// CHECK.md, rule 8: b + p ≤ depth and a + r ≤ depth of a CALL, a + r ≤ depth of a RET.
#[test]
fn spans_of_registers() {
    let depth = 5_u8;
    for results in 0..=8_u8 {
        for arguments in 0..=8_u8 {
            for k in 0..=8_u8 {
                let callee = [NEW; 8];
                let callee = [&callee[..], &[RET]].concat();
                let answer = |call: Fields| {
                    let caller = [&[NEW; 5][..], &[call, RET]].concat();
                    answer_of_check(&assemble(
                        &[(0, 0, &caller), (arguments, results, &callee)],
                        &[],
                    ))
                };
                let expected = |holds: bool| if holds { "accepted" } else { "8 0 5" };
                let holds = results <= depth && k + arguments <= depth;
                assert_eq!(answer((22, 0, k, 0, 1)), expected(holds));
                let holds = arguments <= depth && k + results <= depth;
                assert_eq!(answer((22, k, 0, 0, 1)), expected(holds));
            }
        }
        for a in 0..=8_u8 {
            let callee = [&[NEW; 5][..], &[(23, a, 0, 0, 0)]].concat();
            let module = assemble(&[(0, 0, &[RET]), (0, results, &callee)], &[]);
            let holds = a + results <= depth;
            let expected = if holds { "accepted" } else { "8 1 5" };
            assert_eq!(answer_of_check(&module), expected);
        }
    }
}

/// CHECK.md, "Order of the tests": of two rules that are broken the one of the smaller number is
/// the answer, wherever its place is.
#[test]
fn the_order_of_the_rules() {
    // For each rule a routine that breaks it and no other, and the instruction that does.
    let routines: [(&[Fields], usize); 7] = [
        (&[NEW, (26, 0, 0, 0, 1), RET], 1),
        (&[(2, 0, 0, 0, 0), RET], 0),
        (&[(22, 0, 0, 0, 2), RET], 0),
        (&[NEW, (3, 0, 1, 0, 0), RET], 1),
        (&[NEW, def(0), (3, 1, 0, 0, 0), RET], 2),
        (&[RET, TICK, (18, 0, 0, 0, 3)], 2),
        (&[RET, TICK], 1),
    ];
    for (first, (rows, i)) in routines.iter().enumerate() {
        let module = assemble(&[(0, 0, rows), (0, 0, &[RET])], &[]);
        assert_eq!(answer_of_check(&module), format!("{} 0 {i}", first + 5));
        for (second, (others, j)) in routines.iter().enumerate() {
            let module = assemble(&[(0, 0, rows), (0, 0, others)], &[]);
            let (rule, r, k) = if first <= second {
                (first + 5, 0, i)
            } else {
                (second + 5, 1, j)
            };
            assert_eq!(answer_of_check(&module), format!("{rule} {r} {k}"));
        }
    }
}
