//! unpack and pack: the examples of PACKING.md.

mod common;

use common::{
    answer_of_check, blocks, checked, hex, module_of, number, tables, Content, Fields, RET,
};
use compare::reading::instruction::Row;
use compare::reading::packing::{pack, unpack, Entry, Parts};
use compare::reading::refusal::Refusal;

fn entry(count: u16, arguments: u8, results: u8) -> Entry {
    Entry {
        count,
        arguments,
        results,
    }
}

fn row((op, a, b, c, n): Fields) -> Row {
    Row { op, a, b, c, n }
}

/// What pack is lent.
#[derive(Clone)]
struct Lent {
    entries: Vec<Entry>,
    rows: Vec<Row>,
    image: Vec<u8>,
    output: Vec<u8>,
}

impl Lent {
    /// What the example of pack lends.
    fn example() -> Lent {
        let (entries, rows) = unpacked();
        Lent {
            entries: entries[..2].to_vec(),
            rows: rows[..11].to_vec(),
            image: hex("DC 05 C8"),
            output: vec![0xEE; 113],
        }
    }

    /// The same, with a change.
    fn changed(change: impl Fn(&mut Lent)) -> Lent {
        let mut lent = Lent::example();
        change(&mut lent);
        lent
    }

    fn pack(&mut self) -> Result<usize, Refusal> {
        let parts = Parts {
            entries: &self.entries,
            rows: &self.rows,
            image: &self.image,
        };
        pack(parts, &mut self.output)
    }
}

/// The module of two routines, unpacked into 4 entries and 12 rows.
fn unpacked() -> ([Entry; 4], [Row; 12]) {
    let module = module_of("FORMAT.md", "smaller");
    let mut entries = [entry(9, 9, 9); 4];
    let mut rows = [row((99, 99, 99, 99, 99)); 12];
    let checked = checked(&module);
    assert_eq!(unpack(&checked, &mut entries, &mut rows), Ok((2, 11)));
    assert_eq!(checked.image(), hex("DC 05 C8"));
    (entries, rows)
}

#[test]
fn the_example_of_unpack() {
    let (entries, rows) = unpacked();
    assert_eq!(entries[..2], [entry(8, 0, 0), entry(3, 2, 1)]);
    assert_eq!(entries[2..], [entry(9, 9, 9); 2]);
    let table = &tables("PACKING.md", "Example: unpack")[0];
    let listed = table.columns(["k", "op", "a", "b", "c", "n"]);
    assert_eq!(listed.len(), rows.len());
    for (of, listed) in rows.iter().zip(listed) {
        let [k, op, a, b, c, n] = listed.map(number);
        let fields = (op as u8, a as u8, b as u8, c as u8, n as u32);
        assert_eq!(*of, row(fields), "{k}");
    }
}

#[test]
fn too_few_entries_or_rows() {
    let module = module_of("FORMAT.md", "smaller");
    let checked = checked(&module);
    for (n, t) in [(1, 12), (4, 10), (0, 0)] {
        let mut entries = vec![entry(9, 9, 9); n];
        let mut rows = vec![row((99, 99, 99, 99, 99)); t];
        let answer = unpack(&checked, &mut entries, &mut rows);
        assert_eq!(answer, Err(Refusal::Room));
        assert_eq!(entries, vec![entry(9, 9, 9); n]);
        assert_eq!(rows, vec![row((99, 99, 99, 99, 99)); t]);
    }
}

#[test]
fn the_example_of_pack() {
    let page = blocks("PACKING.md");
    let listing = page.iter().find_map(|block| match &block.content {
        Content::Listing(listing) if block.heading == "Example: pack" => Some(hex(listing)),
        _ => None,
    });
    let mut lent = Lent::example();
    assert_eq!(lent.pack(), Ok(111));
    assert_eq!(Some(&lent.output), listing.as_ref());
    assert_eq!(lent.output[..111], module_of("FORMAT.md", "smaller"));
}

/// The changes of the first table, one list for each of its rows.
fn refused_changes() -> Vec<Vec<Lent>> {
    let (entries, rows) = unpacked();
    let one = |change: &dyn Fn(&mut Lent)| vec![Lent::changed(change)];
    let second = |of: Entry| Lent::changed(|lent| lent.entries[1] = of);
    vec![
        one(&|lent| lent.entries.clear()),
        one(&|lent| {
            lent.image = vec![0; 4_097];
            lent.entries[1] = entry(0, 2, 1);
        }),
        vec![
            second(entry(0, 2, 1)),
            second(entry(3, 33, 1)),
            second(entry(3, 2, 9)),
        ],
        vec![second(entry(4_089, 2, 1))],
        one(&|lent| lent.entries = entries.to_vec()),
        one(&|lent| lent.entries.push(entry(1, 0, 0))),
        one(&|lent| lent.entries[0] = entry(7, 0, 0)),
        one(&|lent| lent.rows = rows.to_vec()),
        one(&|lent| lent.rows[6].op = 27),
        one(&|lent| lent.rows[9].n = 1),
        one(&|lent| {
            lent.rows[9].n = 1;
            lent.rows[10].b = 1;
        }),
        one(&|lent| {
            lent.rows[9].n = 1;
            lent.entries = vec![entry(7, 0, 0), entry(4, 2, 1)];
        }),
        one(&|lent| {
            lent.rows[9].n = 1;
            lent.output.truncate(110);
        }),
        one(&|lent| lent.output.truncate(110)),
    ]
}

#[test]
fn what_pack_refuses() {
    let table = &tables("PACKING.md", "Example: pack")[0];
    let listed = table.columns(["Change", "Refusal"]);
    let changes = refused_changes();
    assert_eq!(changes.len(), listed.len());
    for (lents, [change, expected]) in changes.into_iter().zip(listed) {
        for mut lent in lents {
            let refusal = lent.pack().unwrap_err();
            assert_eq!(
                refusal.to_string(),
                format!("refused {expected}"),
                "{change}"
            );
            assert!(lent.output.iter().all(|byte| *byte == 0xEE), "{change}");
        }
    }
}

#[test]
fn what_pack_packs_and_check_refuses() {
    let table = &tables("PACKING.md", "Example: pack")[1];
    let listed = table.columns(["Change", "Refusal of `check`"]);
    let changes = [
        Lent::changed(|lent| lent.rows[5].n = 2),
        Lent::changed(|lent| lent.rows[9].b = 2),
        Lent::changed(|lent| lent.rows[8].n = 3),
        Lent::changed(|lent| lent.entries = vec![entry(7, 0, 0), entry(4, 2, 1)]),
    ];
    assert_eq!(changes.len(), listed.len());
    for (mut lent, [change, expected]) in changes.into_iter().zip(listed) {
        assert_eq!(lent.pack(), Ok(111), "{change}");
        assert_eq!(answer_of_check(&lent.output[..111]), expected, "{change}");
        assert_eq!(lent.output[111..], [0xEE; 2]);
    }
}

#[test]
fn the_limits_of_pack() {
    let flat = |routines: usize, image: usize| Lent {
        entries: vec![entry(1, 0, 0); routines],
        rows: vec![row(RET); routines],
        image: vec![7; image],
        output: vec![0xEE; 4 + 16 * routines + image],
    };
    assert_eq!(flat(64, 4_096).pack(), Ok(4 + 16 * 64 + 4_096));
    assert_eq!(flat(65, 0).pack(), Err(Refusal::Counts));
    assert_eq!(flat(1, 4_097).pack(), Err(Refusal::Counts));
    // 32 arguments and 8 results, but none of routine 0.
    let mut lent = flat(2, 0);
    lent.entries[1] = entry(1, 32, 8);
    assert_eq!(lent.pack(), Ok(36));
    for of in [entry(1, 1, 0), entry(1, 0, 1)] {
        lent.entries[0] = of;
        assert_eq!(lent.pack(), Err(Refusal::Entry { routine: 0 }));
    }
    // 4,096 instructions.
    for (count, answer) in [
        (4_095, Ok(20 + 8 * 4_096)),
        (4_096, Err(Refusal::Entry { routine: 1 })),
    ] {
        let mut lent = flat(2, 0);
        lent.entries[0] = entry(count, 0, 0);
        lent.rows = vec![row(RET); usize::from(count) + 1];
        lent.output = vec![0xEE; 40_000];
        assert_eq!(lent.pack(), answer);
    }
}

/// A module that is unpacked and packed is itself again.
#[test]
fn there_and_back() {
    for name in ["ramp", "smaller"] {
        let module = module_of("FORMAT.md", name);
        let checked = checked(&module);
        let mut entries = [entry(9, 9, 9); 4];
        let mut rows = [row(RET); 12];
        let (n, t) = unpack(&checked, &mut entries, &mut rows).unwrap();
        let parts = Parts {
            entries: &entries[..n],
            rows: &rows[..t],
            image: checked.image(),
        };
        let mut output = vec![0; module.len()];
        assert_eq!(pack(parts, &mut output), Ok(module.len()));
        assert_eq!(output, module);
    }
}
