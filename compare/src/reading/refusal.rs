//! Refusals and places (docs/REFUSALS.md).

use std::fmt;

/// Where an instruction stands: its routine, and its number within the routine.
#[derive(Clone, Copy, PartialEq, Eq, Debug, Default)]
pub struct Place {
    pub routine: u16,
    pub instruction: u16,
}

/// Who causes a refusal or a trip.
#[derive(Clone, Copy, PartialEq, Eq, Debug)]
pub enum Layer {
    Caller,
    Author,
    Engine,
    Host,
}

impl Layer {
    pub fn number(self) -> u8 {
        match self {
            Layer::Caller => 0,
            Layer::Author => 1,
            Layer::Engine => 2,
            Layer::Host => 3,
        }
    }
}

/// Why a call cannot be carried out.
#[derive(Clone, Copy, PartialEq, Eq, Debug)]
pub enum Refusal {
    Truncated,
    Counts,
    Entry { routine: u16 },
    Length,
    Form(Place),
    Stack(Place),
    Callee(Place),
    Register(Place),
    Constant(Place),
    Target(Place),
    Ending(Place),
    Sheet,
    Room,
    Fuel,
    Ended,
    Tripped,
    Running,
    Absent,
}

impl Refusal {
    pub fn number(self) -> u8 {
        match self {
            Refusal::Truncated => 1,
            Refusal::Counts => 2,
            Refusal::Entry { .. } => 3,
            Refusal::Length => 4,
            Refusal::Form(_) => 5,
            Refusal::Stack(_) => 6,
            Refusal::Callee(_) => 7,
            Refusal::Register(_) => 8,
            Refusal::Constant(_) => 9,
            Refusal::Target(_) => 10,
            Refusal::Ending(_) => 11,
            Refusal::Sheet => 12,
            Refusal::Room => 13,
            Refusal::Fuel => 14,
            Refusal::Ended => 15,
            Refusal::Tripped => 16,
            Refusal::Running => 17,
            Refusal::Absent => 18,
        }
    }

    pub fn layer(self) -> Layer {
        match self.number() {
            1..=11 => Layer::Author,
            _ => Layer::Caller,
        }
    }

    /// The place; routine 0 and instruction 0 where there is none.
    pub fn place(self) -> Place {
        match self {
            Refusal::Entry { routine } => Place {
                routine,
                instruction: 0,
            },
            Refusal::Form(place)
            | Refusal::Stack(place)
            | Refusal::Callee(place)
            | Refusal::Register(place)
            | Refusal::Constant(place)
            | Refusal::Target(place)
            | Refusal::Ending(place) => place,
            _ => Place::default(),
        }
    }
}

impl fmt::Display for Refusal {
    fn fmt(&self, f: &mut fmt::Formatter) -> fmt::Result {
        let place = self.place();
        write!(
            f,
            "refused {} {} {}",
            self.number(),
            place.routine,
            place.instruction
        )
    }
}
