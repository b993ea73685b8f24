//! The machine: nested routines, memory, and one step at a time (docs/MACHINE.md, and what the
//! instructions mean in docs/INSTRUCTIONS.md).

use super::host::{Host, HostRefusal};
use super::instruction::{Instruction, Kind, Width};
use super::module::{Checked, MOST_REGISTERS};
use super::refusal::{Layer, Place};

/// How many bytes of memory there are.
pub const MEMORY: usize = 4096;

/// The most routines that are nested, the running one included.
pub const MOST_NESTED: usize = 32;

/// Why a step trips.
#[derive(Clone, Copy, PartialEq, Eq, Debug)]
pub enum Cause {
    ZeroDivisor,
    MemoryPassed { address: u64 },
    TooDeep,
    Host { refusal: HostRefusal, port: u8 },
}

impl Cause {
    pub fn number(self) -> u8 {
        match self {
            Cause::ZeroDivisor => 1,
            Cause::MemoryPassed { .. } => 2,
            Cause::TooDeep => 3,
            Cause::Host { refusal, .. } => refusal.number(),
        }
    }

    pub fn layer(self) -> Layer {
        match self {
            Cause::ZeroDivisor | Cause::MemoryPassed { .. } | Cause::TooDeep => Layer::Engine,
            Cause::Host { .. } => Layer::Host,
        }
    }

    pub fn detail(self) -> u64 {
        match self {
            Cause::ZeroDivisor | Cause::TooDeep => 0,
            Cause::MemoryPassed { address } => address,
            Cause::Host { port, .. } => port.into(),
        }
    }
}

/// A trip: its cause, and the instruction that tripped.
#[derive(Clone, Copy, PartialEq, Eq, Debug)]
pub struct Trip {
    pub cause: Cause,
    pub place: Place,
}

#[derive(Clone, Copy, PartialEq, Eq, Debug)]
pub enum State {
    Running,
    Ended,
    Tripped(Trip),
}

/// Only DEF makes constants.
#[derive(Clone, Copy, PartialEq, Eq, Debug)]
pub enum Register {
    Variable(u32),
    Constant(u32),
}

impl Register {
    pub fn value(self) -> u32 {
        match self {
            Register::Variable(value) | Register::Constant(value) => value,
        }
    }
}

/// A nested routine. One that waits stands at its CALL.
#[derive(Clone, PartialEq, Eq, Debug)]
pub struct Frame {
    pub routine: usize,
    /// The instruction at which it stands.
    pub instruction: usize,
    pub registers: Vec<Register>,
}

impl Frame {
    fn value(&self, k: impl Into<usize>) -> u32 {
        self.registers[k.into()].value()
    }

    fn write(&mut self, k: impl Into<usize>, value: u32) {
        self.registers[k.into()] = Register::Variable(value);
    }

    pub fn depth(&self) -> usize {
        self.registers.len()
    }

    pub fn place(&self) -> Place {
        Place {
            routine: self.routine as u16,
            instruction: self.instruction as u16,
        }
    }
}

#[derive(Clone, PartialEq, Eq, Debug)]
pub struct Machine {
    pub state: State,
    /// The nested routines, the running one last.
    pub frames: Vec<Frame>,
    pub memory: [u8; MEMORY],
}

impl Machine {
    /// A run begins at instruction 0 of routine 0 with no registers, with the image at the start of
    /// memory and zeros after it.
    pub fn begin(module: &Checked) -> Machine {
        let mut memory = [0; MEMORY];
        let image = module.image();
        memory[..image.len()].copy_from_slice(image);
        Machine {
            state: State::Running,
            frames: vec![Frame {
                routine: 0,
                instruction: 0,
                registers: Vec::new(),
            }],
            memory,
        }
    }

    /// The frame of the running routine; none after the end.
    pub fn running(&self) -> Option<&Frame> {
        self.frames.last()
    }

    /// One step of a running machine. Of a checked module there always is one: this panics where
    /// there is none, as the documents would then be wrong.
    pub fn step(&mut self, module: &Checked, host: &mut Host) {
        assert_eq!(self.state, State::Running, "only a running machine steps");
        assert!(
            self.has_rule(module),
            "the step has no rule at {:?}",
            self.running().map(Frame::place)
        );
        if let Err(cause) = self.perform(module, host) {
            let place = self.frame().place();
            self.state = State::Tripped(Trip { cause, place });
        }
        debug_assert!(
            self.running_as_foretold(module),
            "the running routine is not as the check foretold at {:?}",
            self.running().map(Frame::place)
        );
    }

    /// Whether a step has a rule (docs/MACHINE.md, "A step").
    pub fn has_rule(&self, module: &Checked) -> bool {
        let Some((running, waiting)) = self.frames.split_last() else {
            return false;
        };
        if !frame_has_rule(running, module) {
            return false;
        }
        let instruction = module.instruction(running.routine, running.instruction);
        if running.routine == 0 || !matches!(instruction, Some(Instruction::Ret { .. })) {
            return true;
        }
        // RET, in a routine other than routine 0, finds a routine that waits for it.
        let Some(caller) = waiting.last() else {
            return false;
        };
        let waits_for_it = match module.instruction(caller.routine, caller.instruction) {
            Some(Instruction::Call { routine, .. }) => routine as usize == running.routine,
            _ => false,
        };
        waits_for_it && frame_has_rule(caller, module)
    }

    /// Whether the running routine has the depth and the constants that the check foretold for its
    /// place.
    pub fn running_as_foretold(&self, module: &Checked) -> bool {
        self.running().is_none_or(|frame| {
            let foretold = module.foretold(frame.routine, frame.instruction);
            foretold.is_some_and(|shape| {
                let registers = &frame.registers;
                shape.depth as usize == registers.len()
                    && registers.iter().enumerate().all(|(k, register)| {
                        matches!(register, Register::Constant(_)) == shape.is_constant(k)
                    })
            })
        })
    }

    fn frame(&mut self) -> &mut Frame {
        self.frames.last_mut().expect("a running machine has one")
    }

    /// Does what the instruction says. With a cause nothing has changed.
    fn perform(&mut self, module: &Checked, host: &mut Host) -> Result<(), Cause> {
        let nested = self.frames.len();
        let frame = self.frames.last_mut().expect("a running machine has one");
        let instruction = module
            .instruction(frame.routine, frame.instruction)
            .expect("there is a rule");
        match instruction {
            Instruction::New => frame.registers.push(Register::Variable(0)),
            Instruction::Def { value } => frame.registers.push(Register::Constant(value)),
            Instruction::Kill => {
                frame.registers.pop();
            }
            Instruction::Mov { a, b } => frame.write(a, frame.value(b)),
            Instruction::Swap { a, b } => {
                let (of_a, of_b) = (frame.value(a), frame.value(b));
                frame.write(a, of_b);
                frame.write(b, of_a);
            }
            Instruction::Add { a, b, c } => {
                frame.write(a, frame.value(b).wrapping_add(frame.value(c)));
            }
            Instruction::Sub { a, b, c } => {
                frame.write(a, frame.value(b).wrapping_sub(frame.value(c)));
            }
            Instruction::Mul { a, b, c } => {
                frame.write(a, frame.value(b).wrapping_mul(frame.value(c)));
            }
            Instruction::Div { a, b, c, kind } => {
                let division = divide(kind, frame.value(b), frame.value(c))?;
                frame.write(a, division.quotient);
            }
            Instruction::Rem { a, b, c, kind } => {
                let division = divide(kind, frame.value(b), frame.value(c))?;
                frame.write(a, division.remainder);
            }
            Instruction::And { a, b, c } => frame.write(a, frame.value(b) & frame.value(c)),
            Instruction::Or { a, b, c } => frame.write(a, frame.value(b) | frame.value(c)),
            Instruction::Xor { a, b, c } => frame.write(a, frame.value(b) ^ frame.value(c)),
            Instruction::Sl { a, b, c } => {
                frame.write(a, shift_left(frame.value(b), frame.value(c)));
            }
            Instruction::Srl { a, b, c } => {
                frame.write(a, shift_right_logical(frame.value(b), frame.value(c)));
            }
            Instruction::Sra { a, b, c } => {
                frame.write(a, shift_right_arithmetic(frame.value(b), frame.value(c)));
            }
            Instruction::Ld {
                a,
                b,
                width,
                offset,
            } => {
                let from = memory_at(frame.value(b), offset, width)?;
                let mut bytes = [0; 4];
                bytes[..width.bytes()].copy_from_slice(&self.memory[from..from + width.bytes()]);
                frame.write(a, u32::from_le_bytes(bytes));
            }
            Instruction::St {
                a,
                b,
                width,
                offset,
            } => {
                let from = memory_at(frame.value(b), offset, width)?;
                let bytes = frame.value(a).to_le_bytes();
                self.memory[from..from + width.bytes()].copy_from_slice(&bytes[..width.bytes()]);
            }
            Instruction::Bal { target } => {
                frame.instruction = target as usize;
                return Ok(());
            }
            Instruction::Beq { a, b, target } => {
                if frame.value(a) == frame.value(b) {
                    frame.instruction = target as usize;
                    return Ok(());
                }
            }
            Instruction::Blt { a, b, target } => {
                if frame.value(a) < frame.value(b) {
                    frame.instruction = target as usize;
                    return Ok(());
                }
            }
            Instruction::Blts { a, b, target } => {
                if signed(frame.value(a)) < signed(frame.value(b)) {
                    frame.instruction = target as usize;
                    return Ok(());
                }
            }
            Instruction::Call { b, routine, .. } => {
                if nested == MOST_NESTED {
                    return Err(Cause::TooDeep);
                }
                let routine = routine as usize;
                let b = b as usize;
                let arguments = module.entries()[routine].arguments as usize;
                let taken = &frame.registers[b..b + arguments];
                let registers = taken
                    .iter()
                    .map(|register| Register::Variable(register.value()))
                    .collect();
                self.frames.push(Frame {
                    routine,
                    instruction: 0,
                    registers,
                });
                return Ok(());
            }
            Instruction::Ret { .. } if frame.routine == 0 => {
                self.state = State::Ended;
                self.frames.clear();
                return Ok(());
            }
            Instruction::Ret { a } => {
                let returning = self.frames.pop().expect("it was the running one");
                let results = module.entries()[returning.routine].results;
                let caller = self.frame();
                let call = module.instruction(caller.routine, caller.instruction);
                let Some(Instruction::Call { a: into, .. }) = call else {
                    unreachable!("a routine that waits stands at its CALL");
                };
                for k in 0..results {
                    caller.write(into + k, returning.value(a + k));
                }
                caller.instruction += 1;
                return Ok(());
            }
            Instruction::Get { a, port } => match host.read(port.into()) {
                Ok(value) => frame.write(a, value),
                Err(refusal) => return Err(Cause::Host { refusal, port }),
            },
            Instruction::Put { b, port } => {
                if let Err(refusal) = host.write(port.into(), frame.value(b)) {
                    return Err(Cause::Host { refusal, port });
                }
            }
            Instruction::Tick => host.tick(),
        }
        frame.instruction += 1;
        Ok(())
    }
}

/// What a step asks of the routine that stands at an instruction: all but what RET asks of the
/// routine that waits.
fn frame_has_rule(frame: &Frame, module: &Checked) -> bool {
    let Some(instruction) = module.instruction(frame.routine, frame.instruction) else {
        return false;
    };
    let entries = module.entries();
    let depth = frame.depth();
    let room = match instruction {
        Instruction::New | Instruction::Def { .. } => depth < MOST_REGISTERS,
        Instruction::Kill => depth >= 1,
        Instruction::Call { routine, .. } => (routine as usize) < entries.len(),
        _ => true,
    };
    if !room {
        return false;
    }
    let reads = instruction.reads(entries, frame.routine);
    let writes = instruction.writes(entries);
    let within = |span: &super::instruction::Span| span.is_within(depth);
    reads.iter().flatten().all(within)
        && writes.iter().flatten().all(|span| {
            within(span)
                && frame.registers[span.registers()]
                    .iter()
                    .all(|register| matches!(register, Register::Variable(_)))
        })
}

/// The first of the bytes of memory at address base + offset, a whole number.
pub fn memory_at(base: u32, offset: u32, width: Width) -> Result<usize, Cause> {
    let address = u64::from(base) + u64::from(offset);
    if address + width.bytes() as u64 > MEMORY as u64 {
        return Err(Cause::MemoryPassed { address });
    }
    Ok(address as usize)
}

/// A word of 2^31 or more stands for itself minus 2^32.
fn signed(word: u32) -> i64 {
    if word >= 1 << 31 {
        i64::from(word) - (1 << 32)
    } else {
        i64::from(word)
    }
}

/// The word that a whole number is modulo 2^32.
fn word(number: i64) -> u32 {
    number.rem_euclid(1 << 32) as u32
}

#[derive(Clone, Copy, PartialEq, Eq, Debug)]
pub struct Division {
    pub quotient: u32,
    pub remainder: u32,
}

/// DIV and REM (docs/INSTRUCTIONS.md, "Division").
pub fn divide(kind: Kind, dividend: u32, divisor: u32) -> Result<Division, Cause> {
    if divisor == 0 {
        return Err(Cause::ZeroDivisor);
    }
    let (dividend, divisor) = match kind {
        Kind::Unsigned => (dividend.into(), divisor.into()),
        Kind::SignedTowardsZero | Kind::SignedDownwards => (signed(dividend), signed(divisor)),
    };
    let towards_zero = dividend / divisor;
    let is_exact = towards_zero * divisor == dividend;
    let is_negative = (dividend < 0) != (divisor < 0);
    let quotient = match kind {
        Kind::SignedTowardsZero => towards_zero,
        Kind::Unsigned | Kind::SignedDownwards if !is_exact && is_negative => towards_zero - 1,
        Kind::Unsigned | Kind::SignedDownwards => towards_zero,
    };
    // The dividend minus the quotient times the divisor.
    let remainder = dividend - quotient * divisor;
    Ok(Division {
        quotient: word(quotient),
        remainder: word(remainder),
    })
}

/// From a shift of 32 on it gives 0.
pub fn shift_left(b: u32, c: u32) -> u32 {
    b.checked_shl(c).unwrap_or(0)
}

/// From a shift of 32 on it gives 0.
pub fn shift_right_logical(b: u32, c: u32) -> u32 {
    b.checked_shr(c).unwrap_or(0)
}

/// Filled with the sign bit; from a shift of 32 on it gives 32 copies of that.
pub fn shift_right_arithmetic(b: u32, c: u32) -> u32 {
    let filling = if b >> 31 == 1 { u32::MAX } else { 0 };
    match c {
        0 => b,
        1..=31 => b >> c | filling << (32 - c),
        _ => filling,
    }
}
