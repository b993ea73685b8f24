//! The drive: its calls, questions and faults (docs/DRIVE.md, and docs/MACHINE.md, "Faults").

use super::host::Host;
use super::machine::{Machine, State, Trip};
use super::module::Checked;
use super::refusal::{Place, Refusal};

/// The most fuel of a grant.
pub const MOST_FUEL: u32 = 10_000;

/// The most faults in the list.
pub const MOST_FAULTS: usize = 16;

/// A trip that is kept.
#[derive(Clone, Copy, PartialEq, Eq, Debug)]
pub struct Fault {
    pub trip: Trip,
    /// Whether a power cycle has marked it.
    pub marked: bool,
}

#[derive(Clone, Copy, PartialEq, Eq, Debug)]
pub enum Call {
    Grant { fuel: u32 },
    Restart,
    PowerCycle,
}

/// What an accepted call answers.
#[derive(Clone, Copy, PartialEq, Eq, Debug)]
pub struct Answer {
    /// The steps that it made.
    pub steps: u32,
    /// The state after them.
    pub state: State,
}

#[derive(Clone, Debug)]
pub struct Drive<'a> {
    module: Checked<'a>,
    machine: Machine,
    /// The oldest first.
    faults: Vec<Fault>,
}

impl<'a> Drive<'a> {
    pub fn start(module: Checked<'a>) -> Drive<'a> {
        Drive {
            machine: Machine::begin(&module),
            module,
            faults: Vec::new(),
        }
    }

    pub fn call(&mut self, host: &mut Host, call: Call) -> Result<Answer, Refusal> {
        match call {
            Call::Grant { fuel } => self.grant(host, fuel),
            Call::Restart => self.restart(),
            Call::PowerCycle => Ok(self.power_cycle(host)),
        }
    }

    /// Makes steps until the fuel is used or the state leaves running.
    pub fn grant(&mut self, host: &mut Host, fuel: u32) -> Result<Answer, Refusal> {
        if fuel == 0 || fuel > MOST_FUEL {
            return Err(Refusal::Fuel);
        }
        match self.machine.state {
            State::Running => (),
            State::Ended => return Err(Refusal::Ended),
            State::Tripped(_) => return Err(Refusal::Tripped),
        }
        let mut steps = 0;
        while steps < fuel && self.machine.state == State::Running {
            self.machine.step(&self.module, host);
            steps += 1;
        }
        if let State::Tripped(trip) = self.machine.state {
            self.add_fault(trip);
        }
        Ok(Answer {
            steps,
            state: self.machine.state,
        })
    }

    /// Begins again; faults and host stay.
    pub fn restart(&mut self) -> Result<Answer, Refusal> {
        if self.machine.state == State::Running {
            return Err(Refusal::Running);
        }
        Ok(self.begin_again())
    }

    /// Begins again; the faults age, and the host rests.
    pub fn power_cycle(&mut self, host: &mut Host) -> Answer {
        self.faults.retain(|fault| !fault.marked);
        for fault in &mut self.faults {
            fault.marked = true;
        }
        host.rest();
        self.begin_again()
    }

    fn begin_again(&mut self) -> Answer {
        self.machine = Machine::begin(&self.module);
        Answer {
            steps: 0,
            state: State::Running,
        }
    }

    /// A fault at the end of the list, without a mark; a 17th pushes out the oldest.
    fn add_fault(&mut self, trip: Trip) {
        if self.faults.len() == MOST_FAULTS {
            self.faults.remove(0);
        }
        self.faults.push(Fault {
            trip,
            marked: false,
        });
    }

    pub fn module(&self) -> &Checked<'a> {
        &self.module
    }

    pub fn machine(&self) -> &Machine {
        &self.machine
    }

    pub fn state(&self) -> State {
        self.machine.state
    }

    pub fn place(&self) -> Result<Place, Refusal> {
        let running = self.machine.running().ok_or(Refusal::Absent)?;
        Ok(running.place())
    }

    pub fn depth(&self) -> usize {
        self.machine.running().map_or(0, |frame| frame.depth())
    }

    pub fn register(&self, k: usize) -> Result<u32, Refusal> {
        let running = self.machine.running().ok_or(Refusal::Absent)?;
        let register = running.registers.get(k).ok_or(Refusal::Absent)?;
        Ok(register.value())
    }

    pub fn byte(&self, i: usize) -> Result<u8, Refusal> {
        self.machine.memory.get(i).copied().ok_or(Refusal::Absent)
    }

    pub fn fault(&self, i: usize) -> Result<Fault, Refusal> {
        self.faults.get(i).copied().ok_or(Refusal::Absent)
    }

    /// How many faults there are.
    pub fn faults(&self) -> usize {
        self.faults.len()
    }
}
