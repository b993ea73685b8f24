//! The machine in C (baseline/engine.c) and the reading have the same after some steps, of modules at random and of examples of
//! FORMAT.md. It needs `cc`.

mod common;
#[allow(dead_code)]
#[path = "../src/generate.rs"]
mod generate;

use common::{answer_of_check, hex, tables};
use generate::{Case, Random};
use std::fs;
use std::path::{Path, PathBuf};
use std::process::Command;

/// Built in a folder of its own.
struct Baseline {
    program: PathBuf,
    module: PathBuf,
}

impl Baseline {
    fn build(name: &str) -> Baseline {
        let folder = Path::new(env!("CARGO_TARGET_TMPDIR")).join(name);
        fs::create_dir_all(&folder).expect("a folder for the test");
        let program = folder.join("engine");
        let built = Command::new("cc")
            .args(["-O3", "-march=x86-64-v2", "-o"])
            .arg(&program)
            .arg(concat!(env!("CARGO_MANIFEST_DIR"), "/baseline/engine.c"))
            .status()
            .expect("there is cc");
        assert!(built.success());
        Baseline {
            program,
            module: folder.join("module"),
        }
    }

    /// What a program prints after so many steps of the module.
    fn printed(&self, program: &Path, steps: u32) -> String {
        let output = Command::new(program)
            .arg("test")
            .arg(&self.module)
            .arg(steps.to_string())
            .output()
            .expect("it runs");
        assert!(output.status.success(), "{output:?}");
        String::from_utf8(output.stdout).expect("it prints text")
    }

    /// What both print after so many steps of the module.
    fn agree(&self, module: &[u8], steps: u32) -> String {
        fs::write(&self.module, module).expect("the module is written");
        let of_c = self.printed(&self.program, steps);
        let of_reading = self.printed(Path::new(env!("CARGO_BIN_EXE_timing")), steps);
        assert_eq!(of_c, of_reading, "{module:02X?} after {steps} steps");
        of_c
    }
}

#[test]
fn modules_at_random_leave_the_same() {
    let baseline = Baseline::build("random");
    let mut random = Random::new(1);
    let mut states = [0; 3];
    let mut causes = [0; 7];
    let mut accepted = 0;
    while accepted < 1_000 {
        let module = Case::draw(&mut random).module;
        if answer_of_check(&module) != "accepted" {
            continue;
        }
        accepted += 1;
        let text = baseline.agree(&module, 1 + random.below(20_000) as u32);
        let mut words = text.lines().nth(1).expect("the state").split(' ');
        match words.next() {
            Some("running") => states[0] += 1,
            Some("ended") => states[1] += 1,
            _ => {
                states[2] += 1;
                causes[words.next().unwrap().parse::<usize>().unwrap()] += 1;
            }
        }
    }
    assert!(
        states.iter().chain(&causes[1..]).all(|count| *count > 0),
        "{states:?} {causes:?}"
    );
}

/// Of the modules that run in FORMAT.md, and of each also before its end.
#[test]
fn examples_leave_the_same() {
    let baseline = Baseline::build("examples");
    let mut ran = 0;
    for table in tables("FORMAT.md", "Runs that end, trip and go on") {
        for [module] in table.columns(["Module"]) {
            for steps in [1, 2, 3, 10, 10_000] {
                baseline.agree(&hex(module), steps);
            }
            ran += 1;
        }
    }
    assert_eq!(ran, 11);
}
