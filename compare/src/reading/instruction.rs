//! Rows of 8 bytes, the instructions that they are, and what those read and write
//! (docs/INSTRUCTIONS.md, "Layout of an instruction" and "All instructions").

use super::module::Entry;

/// An instruction as it stands in a module.
#[derive(Clone, Copy, PartialEq, Eq, Debug)]
pub struct Row {
    pub op: u8,
    pub a: u8,
    pub b: u8,
    pub c: u8,
    pub n: u32,
}

/// How a division reads its operands and rounds its quotient.
#[derive(Clone, Copy, PartialEq, Eq, Debug)]
pub enum Kind {
    Unsigned,
    SignedTowardsZero,
    SignedDownwards,
}

/// How many bytes of memory an LD or ST is about.
#[derive(Clone, Copy, PartialEq, Eq, Debug)]
pub enum Width {
    One,
    Two,
    Four,
}

/// The 27 instructions. `a`, `b` and `c` are numbers of registers.
#[derive(Clone, Copy, PartialEq, Eq, Debug)]
pub enum Instruction {
    New,
    Def {
        value: u32,
    },
    Kill,
    Mov {
        a: u8,
        b: u8,
    },
    Swap {
        a: u8,
        b: u8,
    },
    Add {
        a: u8,
        b: u8,
        c: u8,
    },
    Sub {
        a: u8,
        b: u8,
        c: u8,
    },
    Mul {
        a: u8,
        b: u8,
        c: u8,
    },
    Div {
        a: u8,
        b: u8,
        c: u8,
        kind: Kind,
    },
    Rem {
        a: u8,
        b: u8,
        c: u8,
        kind: Kind,
    },
    And {
        a: u8,
        b: u8,
        c: u8,
    },
    Or {
        a: u8,
        b: u8,
        c: u8,
    },
    Xor {
        a: u8,
        b: u8,
        c: u8,
    },
    Sl {
        a: u8,
        b: u8,
        c: u8,
    },
    Srl {
        a: u8,
        b: u8,
        c: u8,
    },
    Sra {
        a: u8,
        b: u8,
        c: u8,
    },
    Ld {
        a: u8,
        b: u8,
        width: Width,
        offset: u32,
    },
    St {
        a: u8,
        b: u8,
        width: Width,
        offset: u32,
    },
    Bal {
        target: u32,
    },
    Beq {
        a: u8,
        b: u8,
        target: u32,
    },
    Blt {
        a: u8,
        b: u8,
        target: u32,
    },
    Blts {
        a: u8,
        b: u8,
        target: u32,
    },
    Call {
        a: u8,
        b: u8,
        routine: u32,
    },
    Ret {
        a: u8,
    },
    Get {
        a: u8,
        port: u8,
    },
    Put {
        b: u8,
        port: u8,
    },
    Tick,
}

/// The opcodes that name field a.
const NAME_A: &[u8] = &[
    3, 4, 5, 6, 7, 8, 9, 10, 11, 12, 13, 14, 15, 16, 17, 19, 20, 21, 22, 23, 24,
];

/// The opcodes that name field b.
const NAME_B: &[u8] = &[
    3, 4, 5, 6, 7, 8, 9, 10, 11, 12, 13, 14, 15, 16, 17, 19, 20, 21, 22, 25,
];

/// The opcodes that name field c.
const NAME_C: &[u8] = &[5, 6, 7, 8, 9, 10, 11, 12, 13, 14, 15, 16, 17, 24, 25];

/// The opcodes that name field n.
const NAME_N: &[u8] = &[1, 8, 9, 16, 17, 18, 19, 20, 21, 22];

impl Row {
    /// The row in these 8 bytes.
    pub fn of(bytes: [u8; 8]) -> Row {
        let [op, a, b, c, n0, n1, n2, n3] = bytes;
        Row {
            op,
            a,
            b,
            c,
            n: u32::from_le_bytes([n0, n1, n2, n3]),
        }
    }

    /// Every field that the opcode does not name is 0.
    fn has_only_named_fields(self) -> bool {
        let is_right = |naming: &[u8], field: u32| field == 0 || naming.contains(&self.op);
        is_right(NAME_A, self.a.into())
            && is_right(NAME_B, self.b.into())
            && is_right(NAME_C, self.c.into())
            && is_right(NAME_N, self.n)
    }

    /// The instruction that the row is, or none if it is not well formed.
    pub fn instruction(self) -> Option<Instruction> {
        if !self.has_only_named_fields() {
            return None;
        }
        let Row { op, a, b, c, n } = self;
        let instruction = match op {
            0 => Instruction::New,
            1 => Instruction::Def { value: n },
            2 => Instruction::Kill,
            3 => Instruction::Mov { a, b },
            4 => Instruction::Swap { a, b },
            5 => Instruction::Add { a, b, c },
            6 => Instruction::Sub { a, b, c },
            7 => Instruction::Mul { a, b, c },
            8 => Instruction::Div {
                a,
                b,
                c,
                kind: Kind::of(n)?,
            },
            9 => Instruction::Rem {
                a,
                b,
                c,
                kind: Kind::of(n)?,
            },
            10 => Instruction::And { a, b, c },
            11 => Instruction::Or { a, b, c },
            12 => Instruction::Xor { a, b, c },
            13 => Instruction::Sl { a, b, c },
            14 => Instruction::Srl { a, b, c },
            15 => Instruction::Sra { a, b, c },
            16 => Instruction::Ld {
                a,
                b,
                width: Width::of(c)?,
                offset: n,
            },
            17 => Instruction::St {
                a,
                b,
                width: Width::of(c)?,
                offset: n,
            },
            18 => Instruction::Bal { target: n },
            19 => Instruction::Beq { a, b, target: n },
            20 => Instruction::Blt { a, b, target: n },
            21 => Instruction::Blts { a, b, target: n },
            22 => Instruction::Call { a, b, routine: n },
            23 => Instruction::Ret { a },
            24 => Instruction::Get { a, port: c },
            25 => Instruction::Put { b, port: c },
            26 => Instruction::Tick,
            _ => return None,
        };
        Some(instruction)
    }
}

impl Kind {
    pub fn of(n: u32) -> Option<Kind> {
        match n {
            0 => Some(Kind::Unsigned),
            1 => Some(Kind::SignedTowardsZero),
            2 => Some(Kind::SignedDownwards),
            _ => None,
        }
    }
}

impl Width {
    pub fn of(c: u8) -> Option<Width> {
        match c {
            1 => Some(Width::One),
            2 => Some(Width::Two),
            4 => Some(Width::Four),
            _ => None,
        }
    }

    pub fn bytes(self) -> usize {
        match self {
            Width::One => 1,
            Width::Two => 2,
            Width::Four => 4,
        }
    }
}

/// So many registers from one on. A span of no registers still begins somewhere.
#[derive(Clone, Copy, PartialEq, Eq, Debug)]
pub struct Span {
    pub first: usize,
    pub length: usize,
}

impl Span {
    /// All registers from `first` on, so many of them, are below the depth; where there are none
    /// of them, `first` is at most the depth.
    pub fn is_within(self, depth: usize) -> bool {
        self.first + self.length <= depth
    }

    pub fn registers(self) -> std::ops::Range<usize> {
        self.first..self.first + self.length
    }
}

/// An instruction reads, and writes, at most two spans.
pub type Spans = [Option<Span>; 2];

const NOTHING: Spans = [None, None];

fn span(first: u8, length: usize) -> Option<Span> {
    Some(Span {
        first: first.into(),
        length,
    })
}

fn one(a: u8) -> Spans {
    [span(a, 1), None]
}

fn two(a: u8, b: u8) -> Spans {
    [span(a, 1), span(b, 1)]
}

impl Instruction {
    /// The registers that it reads, where it stands in `routine`, whose entry is among `entries`.
    pub fn reads(self, entries: &[Entry], routine: usize) -> Spans {
        match self {
            Instruction::New
            | Instruction::Def { .. }
            | Instruction::Kill
            | Instruction::Bal { .. }
            | Instruction::Get { .. }
            | Instruction::Tick => NOTHING,
            Instruction::Mov { b, .. } | Instruction::Ld { b, .. } | Instruction::Put { b, .. } => {
                one(b)
            }
            Instruction::Swap { a, b }
            | Instruction::St { a, b, .. }
            | Instruction::Beq { a, b, .. }
            | Instruction::Blt { a, b, .. }
            | Instruction::Blts { a, b, .. } => two(a, b),
            Instruction::Add { b, c, .. }
            | Instruction::Sub { b, c, .. }
            | Instruction::Mul { b, c, .. }
            | Instruction::Div { b, c, .. }
            | Instruction::Rem { b, c, .. }
            | Instruction::And { b, c, .. }
            | Instruction::Or { b, c, .. }
            | Instruction::Xor { b, c, .. }
            | Instruction::Sl { b, c, .. }
            | Instruction::Srl { b, c, .. }
            | Instruction::Sra { b, c, .. } => two(b, c),
            Instruction::Call {
                b, routine: callee, ..
            } => {
                let arguments = entries[callee as usize].arguments;
                [span(b, arguments.into()), None]
            }
            Instruction::Ret { a } => [span(a, entries[routine].results.into()), None],
        }
    }

    /// The registers that it writes.
    pub fn writes(self, entries: &[Entry]) -> Spans {
        match self {
            Instruction::Mov { a, .. }
            | Instruction::Add { a, .. }
            | Instruction::Sub { a, .. }
            | Instruction::Mul { a, .. }
            | Instruction::Div { a, .. }
            | Instruction::Rem { a, .. }
            | Instruction::And { a, .. }
            | Instruction::Or { a, .. }
            | Instruction::Xor { a, .. }
            | Instruction::Sl { a, .. }
            | Instruction::Srl { a, .. }
            | Instruction::Sra { a, .. }
            | Instruction::Ld { a, .. }
            | Instruction::Get { a, .. } => one(a),
            Instruction::Swap { a, b } => two(a, b),
            Instruction::Call {
                a, routine: callee, ..
            } => {
                let results = entries[callee as usize].results;
                [span(a, results.into()), None]
            }
            Instruction::New
            | Instruction::Def { .. }
            | Instruction::Kill
            | Instruction::St { .. }
            | Instruction::Bal { .. }
            | Instruction::Beq { .. }
            | Instruction::Blt { .. }
            | Instruction::Blts { .. }
            | Instruction::Ret { .. }
            | Instruction::Put { .. }
            | Instruction::Tick => NOTHING,
        }
    }

    /// The instruction to which it branches.
    pub fn target(self) -> Option<usize> {
        match self {
            Instruction::Bal { target }
            | Instruction::Beq { target, .. }
            | Instruction::Blt { target, .. }
            | Instruction::Blts { target, .. } => Some(target as usize),
            _ => None,
        }
    }
}
