//! Hosts: ports and tick rules, the table and the axis (docs/HOSTS.md).

/// Rows of a table after so many are ignored.
pub const MOST_PORTS: usize = 256;

/// Whether a port takes orders or only shows something.
#[derive(Clone, Copy, PartialEq, Eq, Debug)]
pub enum Flag {
    Order,
    Sense,
}

#[derive(Clone, Copy, PartialEq, Eq, Debug)]
pub struct Port {
    pub value: u32,
    /// The lowest and the highest value that it takes as an order, both included.
    pub low: u32,
    pub high: u32,
    pub flag: Flag,
    /// The value that a rest gives it, or none.
    pub rest: Option<u32>,
}

#[derive(Clone, Copy, PartialEq, Eq, Debug)]
pub enum HostRefusal {
    NoPort,
    SensePort,
    OutOfLimits,
}

impl HostRefusal {
    pub fn number(self) -> u8 {
        match self {
            HostRefusal::NoPort => 4,
            HostRefusal::SensePort => 5,
            HostRefusal::OutOfLimits => 6,
        }
    }
}

/// What a tick makes of the ports; it changes only values of sense ports.
pub type TickRule = fn(&mut [Port]);

/// A host is known by its ports and its tick rule, and by nothing else.
#[derive(Clone, Debug)]
pub struct Host {
    ports: Vec<Port>,
    tick_rule: TickRule,
}

impl Host {
    /// A host with these ports, of which there are at most 256, and this tick rule.
    pub fn new(ports: Vec<Port>, tick_rule: TickRule) -> Host {
        assert!(ports.len() <= MOST_PORTS);
        Host { ports, tick_rule }
    }

    /// A table of these rows. Rows after the 256th are no ports. A tick changes nothing.
    pub fn table(rows: &[Port]) -> Host {
        let ports = rows.iter().take(MOST_PORTS).copied().collect();
        Host::new(ports, |_| {})
    }

    /// A new axis.
    pub fn axis() -> Host {
        let ports = vec![
            Port {
                value: 0,
                low: 0,
                high: 3000,
                flag: Flag::Order,
                rest: Some(0),
            },
            Port {
                value: 50,
                low: 1,
                high: 500,
                flag: Flag::Order,
                rest: Some(50),
            },
            Port {
                value: 0,
                low: 0,
                high: u32::MAX,
                flag: Flag::Sense,
                rest: None,
            },
            Port {
                value: 0,
                low: 0,
                high: u32::MAX,
                flag: Flag::Sense,
                rest: None,
            },
        ];
        Host::new(ports, axis_tick)
    }

    pub fn ports(&self) -> &[Port] {
        &self.ports
    }

    pub fn read(&self, p: usize) -> Result<u32, HostRefusal> {
        match self.ports.get(p) {
            Some(port) => Ok(port.value),
            None => Err(HostRefusal::NoPort),
        }
    }

    pub fn write(&mut self, p: usize, v: u32) -> Result<(), HostRefusal> {
        let Some(port) = self.ports.get_mut(p) else {
            return Err(HostRefusal::NoPort);
        };
        if port.flag == Flag::Sense {
            return Err(HostRefusal::SensePort);
        }
        if v < port.low || v > port.high {
            return Err(HostRefusal::OutOfLimits);
        }
        port.value = v;
        Ok(())
    }

    pub fn tick(&mut self) {
        (self.tick_rule)(&mut self.ports);
    }

    /// Every port with a rest value has that value, order and sense ports alike.
    pub fn rest(&mut self) {
        for port in &mut self.ports {
            if let Some(rest) = port.rest {
                port.value = rest;
            }
        }
    }
}

/// The speed moves towards the ordered speed by the ramp, or by the whole difference if that is
/// smaller. Then the position gains the new speed, modulo 2^32.
fn axis_tick(ports: &mut [Port]) {
    let [ordered, ramp, speed, position] = ports else {
        unreachable!("an axis has four ports");
    };
    if speed.value < ordered.value {
        speed.value += ramp.value.min(ordered.value - speed.value);
    } else {
        speed.value -= ramp.value.min(speed.value - ordered.value);
    }
    position.value = position.value.wrapping_add(speed.value);
}

/// A trial over any host: an order, some ticks, and the port whose value is answered.
#[derive(Clone, Copy, PartialEq, Eq, Debug)]
pub struct Trial {
    pub port: usize,
    pub value: u32,
    pub ticks: u32,
    pub shown: usize,
}

/// Makes a trial. A refusal changes nothing.
pub fn respond(host: &mut Host, trial: Trial) -> Result<u32, HostRefusal> {
    host.read(trial.shown)?;
    host.write(trial.port, trial.value)?;
    for _ in 0..trial.ticks {
        host.tick();
    }
    host.read(trial.shown)
}
