//! Puts the same modules, hosts, calls and contents to the engine and to the reading, and compares every byte that they write.
//!
//! `compare [MODULES [SEED]]`. It stops at the first difference and prints what was put to both. At the end it prints how
//! often each refusal of each call, each cause of a trip, each state, each answer of a check over sheets of each length, and
//! lists of calls of each length were met, and wants that each was.

mod engine;
mod generate;

use compare::reading::exchange;
use generate::{Case, Contents, Kind, Random};
use std::cmp::Ordering;
use std::env;
use std::fmt::Write;
use std::process::ExitCode;

const MODULES: usize = 100_000;

/// What gives refusals.
#[derive(Clone, Copy)]
enum Giver {
    Check,
    Unpack,
    Pack,
    Drive,
}

/// Each giver and its refusals; 1 to 4 are those of open, which check begins with.
const GIVERS: [(Giver, &str, &[usize]); 4] = [
    (
        Giver::Check,
        "check",
        &[1, 2, 3, 4, 5, 6, 7, 8, 9, 10, 11, 12],
    ),
    (Giver::Unpack, "unpack", &[13]),
    (Giver::Pack, "pack", &[2, 3, 5, 13]),
    (Giver::Drive, "drive", &[14, 15, 16, 17, 18]),
];

const STATES: [&str; 3] = ["running", "ended", "tripped"];

/// What check answers, and how long the sheet is; more than 4,096 rows are 4,096.
const SHEETS: [&str; 8] = [
    "open refuses, over no rows",
    "open refuses, over rows",
    "check refuses with 12, over no rows",
    "check refuses with 12, over rows",
    "a rule is broken, over T rows",
    "a rule is broken, over more",
    "check accepts, over T rows",
    "check accepts, over more",
];

/// The longest sheet and list of calls for which the engine has room.
const MOST_ROWS: usize = 4_096;
const MOST_CALLS: usize = 256;

/// How long a list of calls to a drive is.
const LISTS: [&str; 3] = ["fewer than 256 calls", "256 calls", "more than 256 calls"];

/// How often everything was met.
#[derive(Default)]
struct Tally {
    kinds: [usize; 5],
    accepted: usize,
    over_axis: usize,
    calls: usize,
    steps: u64,
    unpacked: usize,
    packed: usize,
    /// By what gave them, and by number; 0 stands for none.
    refusals: [[usize; 19]; 4],
    sheets: [usize; 8],
    /// Sheets of more rows than the engine has room for, where the module opens.
    longer: usize,
    lists: [usize; 3],
    causes: [usize; 7],
    states: [usize; 3],
    faults: usize,
    marked: usize,
    fullest: usize,
}

/// What was written, read from its beginning.
struct Written<'a>(&'a [u8]);

impl Written<'_> {
    fn number(&mut self, width: usize) -> u64 {
        let (number, rest) = self.0.split_at(width);
        self.0 = rest;
        number
            .iter()
            .rev()
            .fold(0, |sum, byte| sum << 8 | u64::from(*byte))
    }

    fn byte(&mut self) -> usize {
        self.number(1) as usize
    }
}

impl Tally {
    /// Answers the number of the refusal.
    fn refusal(&mut self, giver: Giver, written: &mut Written) -> usize {
        let number = written.byte();
        self.refusals[giver as usize][number] += 1;
        written.number(5);
        number
    }

    fn state(&mut self, written: &mut Written) {
        let state = written.byte();
        self.states[state] += 1;
        if state == 2 {
            self.causes[written.byte()] += 1;
            written.number(5);
            written.number(8);
        }
    }

    fn check(&mut self, bytes: &[u8], case: &Case) {
        let mut written = Written(bytes);
        let refused = (written.byte() == 1).then(|| self.refusal(Giver::Check, &mut written));
        let rows = case.rows.min(MOST_ROWS);
        let more = rows > generate::total(&case.module);
        let sheet = match refused {
            Some(1..=4) => usize::from(rows > 0),
            Some(12) => 2 + usize::from(rows > 0),
            Some(_) => 4 + usize::from(more),
            None => 6 + usize::from(more),
        };
        self.sheets[sheet] += 1;
        self.longer += usize::from(case.rows > MOST_ROWS && sheet > 1);
    }

    fn unpack(&mut self, bytes: &[u8]) {
        let mut written = Written(bytes);
        // Where check refuses, it refused before the calls too, and was counted there.
        if written.byte() == 1 {
            return;
        }
        if written.byte() == 1 {
            self.refusal(Giver::Unpack, &mut written);
            return;
        }
        self.unpacked += 1;
    }

    fn pack(&mut self, bytes: &[u8]) {
        let mut written = Written(bytes);
        if written.byte() == 1 {
            self.refusal(Giver::Pack, &mut written);
            return;
        }
        self.packed += 1;
    }

    fn run(&mut self, bytes: &[u8], case: &Case) {
        let mut written = Written(bytes);
        if written.byte() == 1 {
            self.refusal(Giver::Check, &mut written);
            return;
        }
        self.accepted += 1;
        self.over_axis += usize::from(case.host.is_empty());
        let list = match (case.calls.len() / 5).cmp(&MOST_CALLS) {
            Ordering::Less => 0,
            Ordering::Equal => 1,
            Ordering::Greater => 2,
        };
        self.lists[list] += 1;
        let calls = written.number(4) as usize;
        self.calls += calls;
        for _ in 0..calls {
            if written.byte() == 1 {
                self.refusal(Giver::Drive, &mut written);
            } else {
                self.steps += written.number(4);
                self.state(&mut written);
            }
        }
        // The state is that of the last accepted call, and was counted there.
        if written.byte() == 2 {
            written.number(6);
            written.number(8);
        }
        if written.byte() == 1 {
            self.refusal(Giver::Drive, &mut written);
        } else {
            written.number(4);
        }
        for _ in 0..written.byte() {
            written.number(4);
        }
        written.0 = &written.0[4_096..];
        let faults = written.byte();
        self.faults += faults;
        self.fullest += usize::from(faults == 16);
        for _ in 0..faults {
            written.number(6);
            written.number(8);
            self.marked += written.byte();
        }
    }

    /// Prints it all, and says whether everything was met.
    fn report(&self) -> bool {
        let modules: usize = self.kinds.iter().sum();
        println!("{modules} modules, call lists and contents, no difference");
        for (kind, count) in Kind::ALL.iter().zip(self.kinds) {
            println!("  {count} {kind:?}");
        }
        println!(
            "{} accepted, {} of them over an axis; {} calls, {} steps",
            self.accepted, self.over_axis, self.calls, self.steps
        );
        println!(
            "{} faults, {} of them marked; {} lists with sixteen",
            self.faults, self.marked, self.fullest
        );
        println!("{} unpacked, {} packed", self.unpacked, self.packed);
        let mut all = true;
        let mut print = |what: &str, count: usize| {
            println!("{what}: {count}");
            all &= count > 0;
        };
        for (giver, name, numbers) in GIVERS {
            for number in numbers {
                let count = self.refusals[giver as usize][*number];
                print(&format!("{name} refuses with {number}"), count);
            }
        }
        for (cause, count) in self.causes.iter().enumerate().skip(1) {
            print(&format!("cause {cause}"), *count);
        }
        for (state, count) in STATES.iter().zip(self.states) {
            print(state, count);
        }
        for (sheet, count) in SHEETS.iter().zip(self.sheets) {
            print(sheet, count);
        }
        print("check over more than 4,096 rows", self.longer);
        for (list, count) in LISTS.iter().zip(self.lists) {
            print(list, count);
        }
        all
    }
}

fn hexadecimal(bytes: &[u8]) -> String {
    bytes.iter().fold(String::new(), |mut text, byte| {
        let _ = write!(text, "{byte:02X}");
        text
    })
}

/// Prints a difference and what was put to both.
fn differ(what: &str, number: usize, case: &Case, engine: &[u8], reading: &[u8]) -> ExitCode {
    let at = engine
        .iter()
        .zip(reading)
        .take_while(|(a, b)| a == b)
        .count();
    println!(
        "{what} {number} ({:?}) differs at byte {at} of {} and {}",
        case.kind,
        engine.len(),
        reading.len()
    );
    println!("module {}", hexadecimal(&case.module));
    println!("rows {}", case.rows);
    println!("host {}", hexadecimal(&case.host));
    println!("calls {}", hexadecimal(&case.calls));
    println!("lent {:?}", case.lent);
    println!("entries {}", hexadecimal(&case.contents.entries));
    println!("instructions {}", hexadecimal(&case.contents.rows));
    println!("image {}", hexadecimal(&case.contents.image));
    println!("size {}", case.size);
    println!("engine {}", hexadecimal(engine));
    println!("reading {}", hexadecimal(reading));
    ExitCode::FAILURE
}

fn main() -> ExitCode {
    let mut arguments = env::args().skip(1).map(|word| word.parse::<usize>());
    let (Ok(modules), Ok(seed)) = (
        arguments.next().unwrap_or(Ok(MODULES)),
        arguments.next().unwrap_or(Ok(1)),
    ) else {
        println!("compare [MODULES [SEED]]");
        return ExitCode::FAILURE;
    };
    let mut random = Random::new(seed as u64);
    let mut tally = Tally::default();
    for number in 0..modules {
        let case = Case::draw(&mut random);
        let engine = engine::check(&case.module, case.rows);
        let reading = exchange::check(&case.module, case.rows);
        if engine != reading {
            return differ("check", number, &case, &engine, &reading);
        }
        tally.check(&engine, &case);
        let engine = engine::run(&case.module, &case.host, &case.calls);
        let reading = exchange::run(&case.module, &case.host, &case.calls);
        if engine != reading {
            return differ("run", number, &case, &engine, &reading);
        }
        tally.run(&engine, &case);
        let (entries, rows) = case.lent;
        let engine = engine::unpack(&case.module, entries, rows);
        let reading = exchange::unpack(&case.module, entries, rows);
        if engine != reading {
            return differ("unpack", number, &case, &engine, &reading);
        }
        tally.unpack(&engine);
        let Contents {
            entries,
            rows,
            image,
        } = &case.contents;
        let engine = engine::pack(entries, rows, image, case.size);
        let reading = exchange::pack(entries, rows, image, case.size);
        if engine != reading {
            return differ("pack", number, &case, &engine, &reading);
        }
        tally.pack(&engine);
        tally.kinds[case.kind as usize] += 1;
    }
    if tally.report() {
        ExitCode::SUCCESS
    } else {
        ExitCode::FAILURE
    }
}
