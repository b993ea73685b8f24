//! Modules: open, check and the sheet (docs/FORMAT.md, "Layout" and "The tests of open", and
//! docs/CHECK.md).

use super::instruction::{Instruction, Row};
use super::refusal::{Place, Refusal};

/// The most routines of a module.
pub const MOST_ROUTINES: usize = 64;

/// The most instructions of a module.
pub const MOST_INSTRUCTIONS: usize = 4096;

/// The most bytes of an image.
pub const LONGEST_IMAGE: usize = 4096;

/// The most registers of a routine.
pub const MOST_REGISTERS: usize = 32;

/// The most results of a routine.
pub const MOST_RESULTS: u8 = 8;

/// The entry of a routine.
#[derive(Clone, Copy, PartialEq, Eq, Debug)]
pub struct Entry {
    /// The byte of the module at which the body begins.
    pub offset: u32,
    /// The number of instructions.
    pub count: u16,
    /// The number of registers that the routine takes.
    pub arguments: u8,
    /// The number of registers that the routine gives back.
    pub results: u8,
}

impl Entry {
    /// Whether this entry of routine `r` is right, of `n` routines, where those before it have
    /// `before` instructions together (docs/FORMAT.md, test 4).
    fn is_right(&self, r: usize, n: usize, before: usize) -> bool {
        self.offset as usize == 4 + 8 * n + 8 * before
            && self.count != 0
            && self.arguments as usize <= MOST_REGISTERS
            && self.results <= MOST_RESULTS
            && (r != 0 || (self.arguments == 0 && self.results == 0))
            && before + self.count as usize <= MOST_INSTRUCTIONS
    }
}

/// A module that passed the tests of open.
#[derive(Clone, Debug)]
pub struct Opened<'a> {
    bytes: &'a [u8],
    entries: Vec<Entry>,
    /// T, the number of instructions.
    instructions: usize,
    /// D, the length of the image.
    image_length: usize,
}

fn number16(bytes: &[u8], at: usize) -> u16 {
    u16::from_le_bytes([bytes[at], bytes[at + 1]])
}

fn number32(bytes: &[u8], at: usize) -> u32 {
    u32::from_le_bytes([bytes[at], bytes[at + 1], bytes[at + 2], bytes[at + 3]])
}

/// The tests of open, in their order (docs/FORMAT.md, "The tests of open").
pub fn open(bytes: &[u8]) -> Result<Opened<'_>, Refusal> {
    // 1. There are at least 4 bytes.
    if bytes.len() < 4 {
        return Err(Refusal::Truncated);
    }
    // 2. N is 1 to 64 and D is 0 to 4,096.
    let n = number16(bytes, 0) as usize;
    let d = number16(bytes, 2) as usize;
    if !(1..=MOST_ROUTINES).contains(&n) || d > LONGEST_IMAGE {
        return Err(Refusal::Counts);
    }
    // 3. There are at least 4 + 8 × N bytes.
    if bytes.len() < 4 + 8 * n {
        return Err(Refusal::Truncated);
    }
    // 4. Every entry is right, tested from routine 0 on.
    let mut entries = Vec::new();
    let mut before = 0;
    for r in 0..n {
        let at = 4 + 8 * r;
        let entry = Entry {
            offset: number32(bytes, at),
            count: number16(bytes, at + 4),
            arguments: bytes[at + 6],
            results: bytes[at + 7],
        };
        if !entry.is_right(r, n, before) {
            return Err(Refusal::Entry { routine: r as u16 });
        }
        before += entry.count as usize;
        entries.push(entry);
    }
    let t = before;
    // 5. The length is 4 + 8 × N + 8 × T + D.
    if bytes.len() != 4 + 8 * n + 8 * t + d {
        return Err(Refusal::Length);
    }
    Ok(Opened {
        bytes,
        entries,
        instructions: t,
        image_length: d,
    })
}

/// The shape at an instruction, as a row of the sheet has it: how many registers there are before
/// it runs, and which of them are constants.
#[derive(Clone, Copy, PartialEq, Eq, Debug, Default)]
pub struct Shape {
    pub depth: u16,
    /// Bit k is set if register k is a constant.
    pub mask: u32,
}

impl Shape {
    /// So many variables.
    fn variables(depth: u8) -> Shape {
        Shape {
            depth: depth.into(),
            mask: 0,
        }
    }

    /// Whether register k is a constant.
    pub fn is_constant(self, k: usize) -> bool {
        k < MOST_REGISTERS && self.mask >> k & 1 == 1
    }

    /// The bit of register k. There is none past register 31: a shape that deep is refused.
    fn bit(k: u16) -> u32 {
        1_u32.checked_shl(k.into()).unwrap_or(0)
    }

    /// The shape that this instruction passes on. A row that is not well formed passes it on as it
    /// is, and so, here, does a KILL that finds no register; neither shows, as both are refused.
    fn after(self, instruction: Option<Instruction>) -> Shape {
        match instruction {
            Some(Instruction::New) => Shape {
                depth: self.depth + 1,
                mask: self.mask,
            },
            Some(Instruction::Def { .. }) => Shape {
                depth: self.depth + 1,
                mask: self.mask | Shape::bit(self.depth),
            },
            Some(Instruction::Kill) if self.depth > 0 => Shape {
                depth: self.depth - 1,
                mask: self.mask & !Shape::bit(self.depth - 1),
            },
            _ => self,
        }
    }
}

/// The seven rules, in the order in which they are tried.
#[derive(Clone, Copy, PartialEq, Eq, Debug)]
enum Rule {
    Form,
    Stack,
    Callee,
    Register,
    Constant,
    Target,
    Ending,
}

const RULES: [Rule; 7] = [
    Rule::Form,
    Rule::Stack,
    Rule::Callee,
    Rule::Register,
    Rule::Constant,
    Rule::Target,
    Rule::Ending,
];

impl Rule {
    fn refusal(self, place: Place) -> Refusal {
        match self {
            Rule::Form => Refusal::Form(place),
            Rule::Stack => Refusal::Stack(place),
            Rule::Callee => Refusal::Callee(place),
            Rule::Register => Refusal::Register(place),
            Rule::Constant => Refusal::Constant(place),
            Rule::Target => Refusal::Target(place),
            Rule::Ending => Refusal::Ending(place),
        }
    }
}

/// The text of one routine: its instructions, none where the row is not well formed, and the shape
/// at each.
#[derive(Debug)]
struct Text {
    routine: usize,
    instructions: Vec<Option<Instruction>>,
    shapes: Vec<Shape>,
}

impl Text {
    /// Whether the rule holds at instruction i, where all rules before it hold everywhere.
    fn holds(&self, rule: Rule, i: usize, entries: &[Entry]) -> bool {
        let Some(instruction) = self.instructions[i] else {
            return rule != Rule::Form;
        };
        let shape = self.shapes[i];
        let depth = shape.depth as usize;
        match rule {
            Rule::Form => true,
            Rule::Stack => match instruction {
                Instruction::Kill => depth >= 1,
                Instruction::New | Instruction::Def { .. } => depth < MOST_REGISTERS,
                _ => true,
            },
            Rule::Callee => match instruction {
                Instruction::Call { routine, .. } => (routine as usize) < entries.len(),
                _ => true,
            },
            Rule::Register => {
                let reads = instruction.reads(entries, self.routine);
                let writes = instruction.writes(entries);
                reads
                    .iter()
                    .chain(&writes)
                    .flatten()
                    .all(|span| span.is_within(depth))
            }
            Rule::Constant => instruction
                .writes(entries)
                .iter()
                .flatten()
                .all(|span| !span.registers().any(|k| shape.is_constant(k))),
            Rule::Target => match instruction.target() {
                Some(target) => target < self.shapes.len() && self.shapes[target] == shape,
                None => true,
            },
            Rule::Ending => {
                i + 1 < self.instructions.len()
                    || matches!(
                        instruction,
                        Instruction::Bal { .. } | Instruction::Ret { .. }
                    )
            }
        }
    }
}

impl<'a> Opened<'a> {
    pub fn bytes(&self) -> &'a [u8] {
        self.bytes
    }

    pub fn entries(&self) -> &[Entry] {
        &self.entries
    }

    /// N, the number of routines.
    pub fn routines(&self) -> usize {
        self.entries.len()
    }

    /// T, the number of instructions.
    pub fn instructions(&self) -> usize {
        self.instructions
    }

    /// D, the length of the image.
    pub fn image_length(&self) -> usize {
        self.image_length
    }

    /// The image, which ends the module.
    pub fn image(&self) -> &'a [u8] {
        &self.bytes[self.bytes.len() - self.image_length..]
    }

    /// The row of instruction i of routine r.
    pub fn row(&self, r: usize, i: usize) -> Row {
        let at = self.entries[r].offset as usize + 8 * i;
        let mut bytes = [0; 8];
        bytes.copy_from_slice(&self.bytes[at..at + 8]);
        Row::of(bytes)
    }

    /// Shape follows the text of a routine from its first instruction to its last.
    fn text(&self, r: usize) -> Text {
        let mut text = Text {
            routine: r,
            instructions: Vec::new(),
            shapes: Vec::new(),
        };
        let entry = self.entries[r];
        let mut shape = Shape::variables(entry.arguments);
        for i in 0..entry.count.into() {
            let instruction = self.row(r, i).instruction();
            text.instructions.push(instruction);
            text.shapes.push(shape);
            shape = shape.after(instruction);
        }
        text
    }

    /// The rules, one after the other, each over the whole module in order of place.
    fn try_rules(&self, texts: &[Text]) -> Result<(), Refusal> {
        for rule in RULES {
            for text in texts {
                for i in 0..text.instructions.len() {
                    if !text.holds(rule, i, &self.entries) {
                        return Err(rule.refusal(Place {
                            routine: text.routine as u16,
                            instruction: i as u16,
                        }));
                    }
                }
            }
        }
        Ok(())
    }

    /// The texts of all routines of a module that keeps the rules. The first T rows of the sheet
    /// are filled then, and cleared where a rule is broken; the rows after them stay, and so do all
    /// rows of a sheet that is too short (docs/CHECK.md, "The sheet", and docs/REFUSALS.md, "What
    /// holds after a refusal").
    fn accepted(&self, sheet: &mut [Shape]) -> Result<Vec<Text>, Refusal> {
        // A sheet of fewer than T rows is refused before any rule is tried.
        if sheet.len() < self.instructions {
            return Err(Refusal::Sheet);
        }
        let rows = &mut sheet[..self.instructions];
        let texts: Vec<Text> = (0..self.routines()).map(|r| self.text(r)).collect();
        match self.try_rules(&texts) {
            Ok(()) => {
                let shapes = texts.iter().flat_map(|text| &text.shapes);
                for (row, shape) in rows.iter_mut().zip(shapes) {
                    *row = *shape;
                }
                Ok(texts)
            }
            Err(refusal) => {
                rows.fill(Shape::default());
                Err(refusal)
            }
        }
    }

    /// Whether the instructions keep the seven rules, and the shape at each in the sheet.
    pub fn check(&self, sheet: &mut [Shape]) -> Result<(), Refusal> {
        self.accepted(sheet).map(|_| ())
    }

    /// Check, and the checked module after an acceptance.
    pub fn into_checked(self, sheet: &mut [Shape]) -> Result<Checked<'a>, Refusal> {
        let mut bodies = Vec::new();
        let mut shapes = Vec::new();
        for text in self.accepted(sheet)? {
            bodies.push(text.instructions.into_iter().flatten().collect());
            shapes.push(text.shapes);
        }
        Ok(Checked {
            opened: self,
            bodies,
            shapes,
        })
    }
}

/// A module that opens and keeps all seven rules.
#[derive(Clone, Debug)]
pub struct Checked<'a> {
    opened: Opened<'a>,
    bodies: Vec<Vec<Instruction>>,
    shapes: Vec<Vec<Shape>>,
}

impl<'a> Checked<'a> {
    pub fn opened(&self) -> &Opened<'a> {
        &self.opened
    }

    pub fn entries(&self) -> &[Entry] {
        self.opened.entries()
    }

    pub fn image(&self) -> &'a [u8] {
        self.opened.image()
    }

    /// Instruction i of routine r, if there is one.
    pub fn instruction(&self, r: usize, i: usize) -> Option<Instruction> {
        self.bodies.get(r)?.get(i).copied()
    }

    /// The shape that the check foretold for instruction i of routine r, if there is one.
    pub fn foretold(&self, r: usize, i: usize) -> Option<Shape> {
        self.shapes.get(r)?.get(i).copied()
    }
}
