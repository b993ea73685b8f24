//! The worked examples of the documents: what bench prints of each.

mod common;

use common::{blocks, hex, number, Content, Table};
use compare::reading::bench::printed;
use compare::reading::module::open;
use std::collections::HashMap;

/// A module, and what bench prints of it.
struct Example {
    point: String,
    module: Vec<u8>,
    prints: String,
}

/// In the tables ` / ` stands between the lines.
fn lines(cell: &str) -> String {
    cell.trim_matches('`').replace(" / ", "\n") + "\n"
}

/// The examples of a table that changes a module, in the way that its comment says.
fn changed(kind: &str, base: &[u8], table: &Table) -> Vec<Example> {
    let mut examples = Vec::new();
    let mut add = |point: &str, module: Vec<u8>, cell: &str| {
        examples.push(Example {
            point: point.to_string(),
            module,
            prints: lines(cell),
        });
    };
    match kind {
        "lengths" => {
            for [length, point, prints] in table.columns(["Length", "Change", "bench prints"]) {
                let mut module = base.to_vec();
                module.resize(number(length) as usize, 0);
                add(point, module, prints);
            }
        }
        "bytes" => {
            let columns = ["From byte", "New bytes", "Change", "bench prints"];
            for [from, new, point, prints] in table.columns(columns) {
                let mut module = base.to_vec();
                let from = number(from) as usize;
                let new = hex(new);
                module[from..from + new.len()].copy_from_slice(&new);
                add(point, module, prints);
            }
        }
        "instructions" => {
            let columns = ["Instruction", "New bytes", "Change", "bench prints"];
            for [instruction, new, point, prints] in table.columns(columns) {
                let mut module = base.to_vec();
                let body = open(base).expect("it opens").entries()[0].offset as usize;
                let from = body + 8 * number(instruction) as usize;
                module[from..from + 8].copy_from_slice(&hex(new));
                add(point, module, prints);
            }
        }
        _ => panic!("what kind of table is {kind}?"),
    }
    examples
}

fn examples(page: &str) -> Vec<Example> {
    let mut modules: HashMap<String, Vec<u8>> = HashMap::new();
    let mut examples = Vec::new();
    for block in blocks(page) {
        let words: Vec<&str> = block.comment.split(' ').collect();
        match (words.as_slice(), &block.content) {
            (["module", name], Content::Listing(listing)) => {
                modules.insert(name.to_string(), hex(listing));
            }
            (["prints", name], Content::Listing(listing)) => examples.push(Example {
                point: name.to_string(),
                module: modules[*name].clone(),
                prints: listing.clone(),
            }),
            (["modules"], Content::Table(table)) => {
                let point = table.header[table.header.len() - 2].as_str();
                for [module, point, prints] in table.columns(["Module", point, "bench prints"]) {
                    examples.push(Example {
                        point: point.to_string(),
                        module: hex(module),
                        prints: lines(prints),
                    });
                }
            }
            ([kind, "of", name], Content::Table(table)) => {
                examples.extend(changed(kind, &modules[*name], table));
            }
            ([""], _) | (["file", _], _) => (),
            (words, _) => panic!("what is {words:?}?"),
        }
    }
    examples
}

fn all_hold(page: &str, how_many: usize) {
    let examples = examples(page);
    assert_eq!(examples.len(), how_many);
    let mut wrong = 0;
    for example in examples {
        let prints = printed(&example.module);
        if prints != example.prints {
            wrong += 1;
            let Example {
                point,
                prints: documented,
                ..
            } = example;
            println!("{page}, {point}: documented\n{documented}printed\n{prints}");
        }
    }
    assert_eq!(wrong, 0);
}

#[test]
fn of_format() {
    all_hold("FORMAT.md", 54);
}

#[test]
fn of_check() {
    all_hold("CHECK.md", 40);
}

/// docs/PROMISES.md, "What is tested and not proved": there are 94 worked examples.
#[test]
fn of_all_pages() {
    let pages = [
        "ARCHITECTURE.md",
        "CHECK.md",
        "DECISIONS.md",
        "DRIVE.md",
        "FORMAT.md",
        "HOSTS.md",
        "INSTRUCTIONS.md",
        "LAW.md",
        "MACHINE.md",
        "PACKING.md",
        "REFUSALS.md",
        "WORKED.md",
    ];
    let all: usize = pages.iter().map(|page| examples(page).len()).sum();
    assert_eq!(all, 94);
}

/// CHECK.md, "One smallest module for each rule": each breaks one rule. The rule's number is that
/// of its refusal.
#[test]
fn smallest_modules_break_the_rule_of_their_row() {
    let page = blocks("CHECK.md");
    let heading = "One smallest module for each rule";
    let block = page.iter().find(|block| block.heading == heading);
    let Some(Content::Table(table)) = block.map(|block| &block.content) else {
        panic!("no table under {heading}");
    };
    for [rule, module] in table.columns(["Rule", "Module"]) {
        let prints = printed(&hex(module));
        assert_eq!(prints.split(' ').nth(1), Some(rule));
    }
}

/// FORMAT.md, "A module of one routine": samples/ramp.bin has the 60 bytes of `ramp`.
#[test]
fn the_sample_is_ramp() {
    let path = concat!(env!("CARGO_MANIFEST_DIR"), "/../samples/ramp.bin");
    let sample = std::fs::read(path).expect("the sample is there");
    assert_eq!(sample.len(), 60);
    let ramp = &examples("FORMAT.md")[0];
    assert_eq!(ramp.point, "ramp");
    assert_eq!(ramp.module, sample);
}

/// The bytes of each row of the two tables that take a module apart.
#[test]
fn the_tables_of_bytes_are_right() {
    let examples = examples("FORMAT.md");
    let headings = [
        "A module of one routine",
        "A module of two routines with an image",
    ];
    for (heading, module) in headings.into_iter().zip(&examples) {
        let tables = common::tables("FORMAT.md", heading);
        let mut next = 0;
        for [byte, bytes] in tables[0].columns(["Byte", "Bytes"]) {
            let bytes = hex(bytes);
            let from = number(byte) as usize;
            assert_eq!(from, next);
            assert_eq!(module.module[from..from + bytes.len()], bytes);
            next = from + bytes.len();
        }
        assert_eq!(next, module.module.len());
    }
}
