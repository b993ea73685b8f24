//! Modules, hosts, calls and contents at random, the same for the same seed.

/// A generator of random numbers (xorshift, with a multiplication).
pub struct Random(u64);

impl Random {
    pub fn new(seed: u64) -> Random {
        // 0 would stay 0.
        Random(seed.wrapping_mul(0x9E37_79B9_7F4A_7C15) | 1)
    }

    fn next(&mut self) -> u64 {
        self.0 ^= self.0 >> 12;
        self.0 ^= self.0 << 25;
        self.0 ^= self.0 >> 27;
        self.0.wrapping_mul(0x2545_F491_4F6C_DD1D) >> 16
    }

    /// A number below `count`.
    pub fn below(&mut self, count: usize) -> usize {
        (self.next() % count as u64) as usize
    }

    /// True in so many of a hundred cases.
    pub fn percent(&mut self, cases: usize) -> bool {
        self.below(100) < cases
    }

    fn pick<T: Copy>(&mut self, of: &[T]) -> T {
        of[self.below(of.len())]
    }

    fn byte(&mut self) -> u8 {
        self.next() as u8
    }

    /// A word, often one at which something changes.
    fn word(&mut self) -> u32 {
        match self.below(12) {
            0..=6 => self.below(8) as u32,
            7 => self.pick(&[
                31, 32, 33, 49, 50, 51, 120, 255, 256, 500, 501, 3_000, 3_001,
            ]),
            8 => 4_088 + self.below(12) as u32,
            9 => self.pick(&[
                u32::MAX,
                u32::MAX - 1,
                1 << 31,
                (1 << 31) - 1,
                (1 << 31) + 1,
            ]),
            10 => self.below(5_000) as u32,
            _ => self.next() as u32,
        }
    }
}

/// How a module came to be.
#[derive(Clone, Copy, PartialEq, Eq, Debug)]
pub enum Kind {
    WellFormed,
    Damaged,
    Cut,
    Extended,
    Random,
}

impl Kind {
    pub const ALL: [Kind; 5] = [
        Kind::WellFormed,
        Kind::Damaged,
        Kind::Cut,
        Kind::Extended,
        Kind::Random,
    ];
}

/// What a module is put together from.
#[derive(Default)]
pub struct Contents {
    /// 4 bytes each.
    pub entries: Vec<u8>,
    /// 8 bytes each.
    pub rows: Vec<u8>,
    pub image: Vec<u8>,
}

/// What is put to both implementations.
pub struct Case {
    pub kind: Kind,
    pub module: Vec<u8>,
    /// The rows of the sheet of the check; the run has a sheet of 4,096. The engine takes more than those for 4,096.
    pub rows: usize,
    pub host: Vec<u8>,
    pub calls: Vec<u8>,
    /// How many entries and rows are lent to unpack.
    pub lent: (usize, usize),
    pub contents: Contents,
    /// The length of the output of pack.
    pub size: usize,
}

/// An instruction.
#[derive(Clone, Copy, Default)]
struct Row {
    op: u8,
    a: u8,
    b: u8,
    c: u8,
    n: u32,
}

const NEW: u8 = 0;
const DEF: u8 = 1;
const KILL: u8 = 2;
const MOV: u8 = 3;
const SWAP: u8 = 4;
const ADD: u8 = 5;
const SRA: u8 = 15;
const DIV: u8 = 8;
const REM: u8 = 9;
const LD: u8 = 16;
const ST: u8 = 17;
const BAL: u8 = 18;
const BEQ: u8 = 19;
const BLTS: u8 = 21;
const CALL: u8 = 22;
const RET: u8 = 23;
const GET: u8 = 24;
const PUT: u8 = 25;
const TICK: u8 = 26;

/// What a routine takes and gives.
#[derive(Clone, Copy)]
struct Signature {
    arguments: usize,
    results: usize,
}

/// The body of a routine as it grows: its instructions, the shape at each of them, and the shape after the last. A shape says
/// of each register whether it is a constant.
struct Body {
    rows: Vec<Row>,
    shapes: Vec<Vec<bool>>,
    shape: Vec<bool>,
}

impl Body {
    fn put(&mut self, row: Row) {
        self.rows.push(row);
        self.shapes.push(self.shape.clone());
        match row.op {
            NEW => self.shape.push(false),
            DEF => self.shape.push(true),
            KILL => {
                self.shape.pop();
            }
            _ => {}
        }
    }

    fn depth(&self) -> usize {
        self.shape.len()
    }

    /// A register, if there is one.
    fn any(&self, random: &mut Random) -> Option<u8> {
        (self.depth() > 0).then(|| random.below(self.depth()) as u8)
    }

    /// A register that is a variable, if there is one.
    fn variable(&self, random: &mut Random) -> Option<u8> {
        let variables: Vec<u8> = (0..self.depth())
            .filter(|k| !self.shape[*k])
            .map(|k| k as u8)
            .collect();
        (!variables.is_empty()).then(|| random.pick(&variables))
    }

    /// The first of so many registers in a row, all of them there, and variables if that is asked.
    fn span(&self, random: &mut Random, count: usize, variables: bool) -> Option<u8> {
        let spans: Vec<u8> = (0..=self.depth())
            .filter(|k| {
                k + count <= self.depth()
                    && (!variables || self.shape[*k..k + count].iter().all(|constant| !constant))
            })
            .map(|k| k as u8)
            .collect();
        (!spans.is_empty()).then(|| random.pick(&spans))
    }

    /// An instruction of the kind that is drawn, if the shape allows one.
    fn draw(
        &mut self,
        random: &mut Random,
        own: Signature,
        signatures: &[Signature],
        ports: usize,
    ) -> Option<Row> {
        let row = Row::default();
        let n = random.word();
        let offset = if random.percent(85) {
            random.below(4_096) as u32
        } else {
            n
        };
        let port = match random.below(20) {
            0 => random.byte(),
            1 => (ports.min(255)) as u8,
            _ => random.below(ports.clamp(1, 256)) as u8,
        };
        Some(match random.below(40) {
            0..=2 if self.depth() < 32 => Row { op: NEW, ..row },
            3..=6 if self.depth() < 32 => Row { op: DEF, n, ..row },
            7 if self.depth() > 0 => Row { op: KILL, ..row },
            8..=9 => Row {
                op: MOV,
                a: self.variable(random)?,
                b: self.any(random)?,
                ..row
            },
            10 => Row {
                op: SWAP,
                a: self.variable(random)?,
                b: self.variable(random)?,
                ..row
            },
            11..=17 => {
                let op = ADD + random.below((SRA - ADD + 1) as usize) as u8;
                let kind = if op == DIV || op == REM {
                    random.below(3) as u32
                } else {
                    0
                };
                Row {
                    op,
                    a: self.variable(random)?,
                    b: self.any(random)?,
                    c: self.any(random)?,
                    n: kind,
                }
            }
            18..=20 => Row {
                op: LD,
                a: self.variable(random)?,
                b: self.any(random)?,
                c: random.pick(&[1, 2, 4]),
                n: offset,
            },
            21..=23 => Row {
                op: ST,
                a: self.any(random)?,
                b: self.any(random)?,
                c: random.pick(&[1, 2, 4]),
                n: offset,
            },
            24 if random.percent(20) => Row { op: BAL, ..row },
            25..=27 => {
                let op = BEQ + random.below((BLTS - BEQ + 1) as usize) as u8;
                Row {
                    op,
                    a: self.any(random)?,
                    b: self.any(random)?,
                    ..row
                }
            }
            28..=31 => {
                let callee = random.below(signatures.len());
                let Signature { arguments, results } = signatures[callee];
                Row {
                    op: CALL,
                    a: self.span(random, results, true)?,
                    b: self.span(random, arguments, false)?,
                    n: callee as u32,
                    ..row
                }
            }
            32 if random.percent(20) => Row {
                op: RET,
                a: self.span(random, own.results, false)?,
                ..row
            },
            33..=34 => Row {
                op: GET,
                a: self.variable(random)?,
                c: port,
                ..row
            },
            35..=37 => Row {
                op: PUT,
                b: self.any(random)?,
                c: port,
                ..row
            },
            38..=39 => Row { op: TICK, ..row },
            _ => return None,
        })
    }

    /// A loop that counts a register up to a limit, with a few instructions in it that leave the shape.
    fn count_up(&mut self, random: &mut Random, ports: usize) {
        if self.depth() + 3 > 32 {
            return;
        }
        let i = self.depth() as u8;
        self.put(Row {
            op: NEW,
            ..Row::default()
        });
        self.put(Row {
            op: DEF,
            n: random.below(12) as u32,
            ..Row::default()
        });
        self.put(Row {
            op: DEF,
            n: 1,
            ..Row::default()
        });
        let head = self.rows.len() as u32;
        let inside = 1 + random.below(3) as u32;
        self.put(Row {
            op: BEQ,
            a: i,
            b: i + 1,
            n: head + inside + 3,
            ..Row::default()
        });
        for _ in 0..inside {
            let port = random.below(ports.clamp(1, 256)) as u8;
            let row = match random.below(3) {
                0 => Row {
                    op: ST,
                    a: i,
                    b: i,
                    c: random.pick(&[1, 2, 4]),
                    n: random.below(4_092) as u32,
                },
                1 => Row {
                    op: PUT,
                    b: i,
                    c: port,
                    ..Row::default()
                },
                _ => Row {
                    op: TICK,
                    ..Row::default()
                },
            };
            self.put(row);
        }
        self.put(Row {
            op: ADD,
            a: i,
            b: i,
            c: i + 2,
            ..Row::default()
        });
        self.put(Row {
            op: BAL,
            n: head,
            ..Row::default()
        });
    }

    /// An instruction with the shape of the given one: mostly a later one, so that most runs end.
    fn target(&self, random: &mut Random, from: usize) -> u32 {
        let later = random.percent(85);
        let targets: Vec<u32> = (0..self.rows.len())
            .filter(|k| self.shapes[*k] == self.shapes[from] && (!later || *k > from))
            .map(|k| k as u32)
            .collect();
        if targets.is_empty() {
            from as u32
        } else {
            random.pick(&targets)
        }
    }
}

/// A routine that keeps all rules.
fn body(
    random: &mut Random,
    own: Signature,
    signatures: &[Signature],
    ports: usize,
    length: usize,
) -> Vec<Row> {
    let mut body = Body {
        rows: Vec::new(),
        shapes: Vec::new(),
        shape: vec![false; own.arguments],
    };
    let mut open = Vec::new();
    if random.percent(60) {
        let count = if random.percent(3) {
            33
        } else {
            random.below(6)
        };
        for _ in 0..count {
            if body.depth() < 32 {
                let op = random.pick(&[NEW, DEF]);
                let n = if op == DEF { random.word() } else { 0 };
                body.put(Row {
                    op,
                    n,
                    ..Row::default()
                });
            }
        }
    }
    while body.rows.len() < length {
        if random.percent(3) {
            body.count_up(random, ports);
        }
        if let Some(row) = body.draw(random, own, signatures, ports) {
            if (BAL..=BLTS).contains(&row.op) {
                open.push(body.rows.len());
            }
            body.put(row);
        }
    }
    while body.depth() < own.results {
        body.put(Row {
            op: NEW,
            ..Row::default()
        });
    }
    if random.percent(5) {
        open.push(body.rows.len());
        body.put(Row {
            op: BAL,
            ..Row::default()
        });
    } else {
        let a = body
            .span(random, own.results, false)
            .expect("there are as many registers as results");
        body.put(Row {
            op: RET,
            a,
            ..Row::default()
        });
    }
    for k in open {
        body.rows[k].n = body.target(random, k);
    }
    body.rows
}

/// The bytes of a module of these routines and this image.
fn pack(routines: &[(Signature, Vec<Row>)], image: &[u8]) -> Vec<u8> {
    let mut module = Vec::new();
    module.extend((routines.len() as u16).to_le_bytes());
    module.extend((image.len() as u16).to_le_bytes());
    let mut offset = 4 + 8 * routines.len();
    for (signature, rows) in routines {
        module.extend((offset as u32).to_le_bytes());
        module.extend((rows.len() as u16).to_le_bytes());
        module.push(signature.arguments as u8);
        module.push(signature.results as u8);
        offset += 8 * rows.len();
    }
    for row in routines.iter().flat_map(|(_, rows)| rows) {
        module.extend([row.op, row.a, row.b, row.c]);
        module.extend(row.n.to_le_bytes());
    }
    module.extend(image);
    module
}

/// A module of so many instructions in one or two routines: up to 4,096 it keeps all rules.
fn long(random: &mut Random, instructions: usize) -> Vec<u8> {
    let none = Signature {
        arguments: 0,
        results: 0,
    };
    let row = |op| Row {
        op,
        ..Row::default()
    };
    let body = |length: usize| {
        let mut body = vec![row(TICK); length - 1];
        body.push(row(RET));
        (none, body)
    };
    let second = random.below(3);
    let mut routines = vec![body(instructions - second)];
    if second > 0 {
        routines.push(body(second));
    }
    let image = vec![random.byte(); random.pick(&[0, 1, 4_096])];
    pack(&routines, &image)
}

/// A module that keeps all rules.
fn well_formed(random: &mut Random, ports: usize) -> Vec<u8> {
    if random.below(400) == 0 {
        let instructions = random.pick(&[4_095, 4_096]);
        return long(random, instructions);
    }
    let count = match random.below(20) {
        0 => 1 + random.below(64),
        1..=8 => 1,
        _ => 2 + random.below(4),
    };
    let mut signatures = vec![Signature {
        arguments: 0,
        results: 0,
    }];
    for _ in 1..count {
        let arguments = if random.percent(5) {
            random.below(33)
        } else {
            random.below(5)
        };
        let results = if random.percent(5) {
            random.below(9)
        } else {
            random.below(3)
        };
        signatures.push(Signature { arguments, results });
    }
    let routines: Vec<(Signature, Vec<Row>)> = signatures
        .iter()
        .map(|own| {
            let length = if random.percent(2) {
                random.below(400 / count + 40)
            } else {
                random.below(30)
            };
            (*own, body(random, *own, &signatures, ports, length))
        })
        .collect();
    let image = match random.below(50) {
        0 => random.pick(&[4_095, 4_096]),
        1 => random.below(4_097),
        2..=20 => random.below(20),
        _ => 0,
    };
    let image: Vec<u8> = (0..image).map(|_| random.byte()).collect();
    pack(&routines, &image)
}

/// Another target of a branch, or another last instruction, in one of the routines.
fn misdirect(random: &mut Random, module: &mut [u8], routine: usize) {
    let entry = 4 + 8 * routine;
    let field = |at: usize| usize::from(u16::from_le_bytes([module[at], module[at + 1]]));
    // The offset has a third byte only in a module of some thousand instructions.
    let first = field(entry) + 65_536 * usize::from(module[entry + 2]);
    let count = field(entry + 4);
    let branches: Vec<usize> = (0..count)
        .map(|k| first + 8 * k)
        .filter(|at| (BAL..=BLTS).contains(&module[*at]))
        .collect();
    let (at, op, target) = if branches.is_empty() || random.percent(30) {
        let last = first + 8 * (count - 1);
        (last, random.pick(&[BEQ, BLTS, TICK, NEW]), count - 1)
    } else {
        let at = random.pick(&branches);
        (at, module[at], random.below(count + 1))
    };
    let n = if (BAL..=BLTS).contains(&op) {
        target
    } else {
        0
    };
    module[at] = op;
    module[at + 4..at + 8].copy_from_slice(&(n as u32).to_le_bytes());
}

/// Another value of one field or byte, or another instruction in one place.
fn damage(random: &mut Random, module: &mut [u8]) {
    let routines = usize::from(module[0]);
    let rows = 4 + 8 * routines;
    let count: usize = (0..routines)
        .map(|r| usize::from(u16::from_le_bytes([module[8 + 8 * r], module[9 + 8 * r]])))
        .sum();
    let at = match random.below(15) {
        0 => random.below(4),
        1..=2 => 4 + random.below(8 * routines),
        3 => random.below(module.len()),
        4..=5 => {
            let at = rows + 8 * random.below(count);
            let op = random.pick(&[NEW, KILL, KILL, BAL, CALL, RET, TICK]);
            module[at..at + 8].copy_from_slice(&[op, 0, 0, 0, 0, 0, 0, 0]);
            return;
        }
        6..=8 => {
            let routine = random.below(routines);
            return misdirect(random, module, routine);
        }
        // A field of an instruction: op, a, b, c, or the lowest byte of n.
        _ => rows + 8 * random.below(count) + random.below(5),
    };
    alter(random, &mut module[at]);
}

/// Another value of a byte.
fn alter(random: &mut Random, byte: &mut u8) {
    *byte = match random.below(5) {
        0 => random.byte(),
        1 => byte.wrapping_add(1),
        2 => byte.wrapping_sub(1),
        3 => *byte ^ (1 << random.below(8)),
        _ => random.below(33) as u8,
    };
}

/// Bytes of no intent, some of them with the header of a small module.
fn noise(random: &mut Random) -> Vec<u8> {
    let len = random.below(120);
    let mut module: Vec<u8> = (0..len).map(|_| random.byte()).collect();
    if random.percent(50) && len >= 4 {
        module[..4].copy_from_slice(&[1 + random.below(3) as u8, 0, random.below(8) as u8, 0]);
    }
    module
}

/// A new axis, or the rows of a table; and how many ports the host has.
fn host(random: &mut Random) -> (Vec<u8>, usize) {
    if random.percent(40) {
        return (Vec::new(), 4);
    }
    let rows = match random.below(20) {
        0 => 250 + random.below(51),
        1 => random.pick(&[255, 256, 257, 300]),
        2 => 0,
        _ => 1 + random.below(8),
    };
    let mut host = vec![1];
    for _ in 0..rows {
        let (low, high) = match random.below(5) {
            0 => (0, u32::MAX),
            1 => (0, 3_000),
            2 => (random.word(), random.word()),
            3 => (random.below(4) as u32, random.below(8) as u32),
            _ => (0, random.word()),
        };
        let rest = random.percent(50);
        host.extend(random.word().to_le_bytes());
        host.extend(low.to_le_bytes());
        host.extend(high.to_le_bytes());
        host.push(u8::from(random.percent(25)));
        host.push(u8::from(rest));
        // Without a rest value any bytes may stand there.
        host.extend(random.word().to_le_bytes());
    }
    if random.percent(3) {
        host.extend((0..random.below(18)).map(|_| 7));
    }
    (host, rows.min(256))
}

/// A list of calls: a few of all kinds, or many grants and restarts, for many trips; now and then about as many as the engine
/// makes, or more.
fn calls(random: &mut Random) -> Vec<u8> {
    let many = random.percent(4);
    let count = if !many {
        random.below(10)
    } else if random.percent(75) {
        20 + random.below(60)
    } else {
        random.pick(&[255, 256, 256, 256, 257, 258, 300, 512])
    };
    let mut calls = Vec::new();
    for k in 0..count {
        let kind = match random.below(100) {
            0..=2 => 2 + random.below(254) as u8,
            _ if many => (k % 2) as u8,
            3..=64 => 0,
            65..=84 => 1,
            _ => 2,
        };
        let fuel = match random.below(30) {
            0 => 0,
            1 => 10_000,
            2 => 10_001,
            3 => random.word(),
            4 => u32::MAX,
            5..=12 => 1 + random.below(6) as u32,
            _ => 1 + random.below(400) as u32,
        };
        calls.push(kind);
        calls.extend(fuel.to_le_bytes());
    }
    if random.percent(3) {
        calls.extend((0..random.below(5)).map(|_| 0));
    }
    calls
}

/// The number of instructions by the entries, where there are that many bytes. In a module that opens this is T.
pub fn total(module: &[u8]) -> usize {
    let routines = module.first().map_or(0, |n| usize::from(*n));
    (0..routines)
        .filter_map(|r| module.get(8 + 8 * r..10 + 8 * r))
        .map(|count| usize::from(u16::from_le_bytes([count[0], count[1]])))
        .sum()
}

/// How many rows a sheet has: as many as there are instructions, a few more or fewer, none, as many as are enough for every
/// module, or more than those.
fn sheet(random: &mut Random, instructions: usize) -> usize {
    match random.below(20) {
        0..=4 => instructions,
        5..=8 => instructions + 1,
        9..=11 => instructions + 1 + random.below(20),
        12..=13 => instructions.saturating_sub(1),
        14 => random.below(instructions + 1),
        15 => 0,
        16 => random.pick(&[4_095, 4_097, 5_000]),
        _ => 4_096,
    }
}

/// A number near another: often that one, or one less or more.
fn near(random: &mut Random, number: usize, most: usize) -> usize {
    let near = match random.below(10) {
        0..=3 => number,
        4 => number.saturating_sub(1),
        5..=6 => number + 1,
        7 => random.below(number + 2),
        8 => number + random.below(20),
        _ => random.pick(&[0, 1, most]),
    };
    near.min(most)
}

impl Contents {
    /// The contents of a module.
    fn of(module: &[u8]) -> Contents {
        let routines = usize::from(module[0]);
        let (header, rest) = module.split_at(4 + 8 * routines);
        let (rows, image) = rest.split_at(8 * total(module));
        Contents {
            entries: header[4..]
                .chunks(8)
                .flat_map(|entry| entry[4..].to_vec())
                .collect(),
            rows: rows.to_vec(),
            image: image.to_vec(),
        }
    }

    /// So many routines that take and give nothing, of one instruction each.
    fn flat(routines: usize) -> Contents {
        Contents {
            entries: [1, 0, 0, 0].repeat(routines),
            rows: [RET, 0, 0, 0, 0, 0, 0, 0].repeat(routines),
            image: Vec::new(),
        }
    }

    /// Bytes of no intent, with incomplete entries and instructions at the end.
    fn noise(random: &mut Random) -> Contents {
        let mut bytes = |most: usize| -> Vec<u8> {
            let len = random.below(most);
            (0..len).map(|_| random.byte()).collect()
        };
        Contents {
            entries: bytes(20),
            rows: bytes(60),
            image: bytes(10),
        }
    }

    /// What pack counts in the entries.
    fn total(&self) -> usize {
        let counts = self.entries.chunks_exact(4);
        counts
            .map(|entry| usize::from(u16::from_le_bytes([entry[0], entry[1]])))
            .sum()
    }

    /// The length of the module, if these are the contents of one.
    fn length(&self) -> usize {
        4 + self.entries.len() / 4 * 8 + 8 * self.total() + self.image.len()
    }

    /// An instruction is counted to the next routine, or to the one before.
    fn shift_count(&mut self, random: &mut Random) {
        let routines = self.entries.len() / 4;
        if routines > 1 {
            let r = random.below(routines - 1);
            let step = random.pick(&[1, u8::MAX]);
            for (r, step) in [(r, step), (r + 1, step.wrapping_neg())] {
                self.entries[4 * r] = self.entries[4 * r].wrapping_add(step);
            }
        }
    }

    /// Another value of one field, or more or fewer of something.
    fn damage(&mut self, random: &mut Random) {
        match random.below(13) {
            0..=2 if self.entries.len() >= 4 => {
                let at = 4 * random.below(self.entries.len() / 4);
                let field = random.below(4);
                match random.below(4) {
                    0 => self.entries[at + 2] = random.pick(&[32, 33]),
                    1 => self.entries[at + 3] = random.pick(&[8, 9]),
                    _ => alter(random, &mut self.entries[at + field]),
                }
            }
            3..=5 if self.rows.len() >= 8 => {
                // A field of an instruction: op, a, b, c, or the lowest byte of n.
                let at = 8 * random.below(self.rows.len() / 8) + random.below(5);
                alter(random, &mut self.rows[at]);
            }
            6 => {
                let last = self.entries.len().saturating_sub(4);
                self.entries.truncate(last);
            }
            7 => self.entries.extend([
                random.below(3) as u8,
                0,
                random.below(34) as u8,
                random.below(10) as u8,
            ]),
            8 => {
                let last = self.rows.len().saturating_sub(8);
                self.rows.truncate(last);
            }
            9 => self.rows.extend([TICK, 0, 0, 0, 0, 0, 0, 0]),
            10 => self.image = vec![random.byte(); random.pick(&[0, 1, 4_095, 4_096, 4_097])],
            // The bytes of an incomplete entry or instruction are ignored.
            11 => {
                self.entries.extend(vec![1; random.below(4)]);
                self.rows.extend(vec![1; random.below(8)]);
            }
            _ => self.shift_count(random),
        }
    }

    /// Contents of this module, of a module that is as large as can be or a little larger, or of none.
    fn draw(random: &mut Random, module: Option<&[u8]>) -> Contents {
        let mut contents = match (random.below(400), module) {
            (0, _) => {
                let instructions = random.pick(&[4_095, 4_096, 4_097]);
                Contents::of(&long(random, instructions))
            }
            (1..=3, _) => Contents::flat(random.pick(&[0, 63, 64, 65])),
            (_, Some(module)) => Contents::of(module),
            (_, None) => Contents::noise(random),
        };
        let damages = random.pick(&[0, 0, 1, 1, 2]);
        for _ in 0..damages {
            contents.damage(random);
        }
        contents
    }
}

impl Case {
    pub fn draw(random: &mut Random) -> Case {
        let (host, ports) = host(random);
        let kind = match random.below(20) {
            0..=8 => Kind::WellFormed,
            9..=15 => Kind::Damaged,
            16 => Kind::Cut,
            17 => Kind::Extended,
            _ => Kind::Random,
        };
        let mut module = if kind == Kind::Random {
            noise(random)
        } else {
            well_formed(random, ports)
        };
        let contents = Contents::draw(random, (kind != Kind::Random).then_some(&module));
        match kind {
            Kind::WellFormed | Kind::Random => {}
            Kind::Damaged if random.below(200) == 0 => module = long(random, 4_097),
            Kind::Damaged => damage(random, &mut module),
            Kind::Cut => {
                let len = if random.percent(40) {
                    random.below(module.len().min(40))
                } else {
                    random.below(module.len())
                };
                module.truncate(len);
            }
            Kind::Extended => {
                for _ in 0..1 + random.below(20) {
                    module.push(random.byte());
                }
            }
        }
        let total = total(&module);
        Case {
            kind,
            rows: sheet(random, total),
            lent: (
                near(random, module.first().map_or(0, |n| usize::from(*n)), 64),
                near(random, total, 4_096),
            ),
            size: near(random, contents.length(), 40_000),
            contents,
            host,
            calls: calls(random),
            module,
        }
    }
}
