//! Modules taken apart and put together (docs/PACKING.md). Unlike the rest, this was written by one
//! who had read the engine's contracts.

use super::instruction::Row;
use super::module::{
    Checked, LONGEST_IMAGE, MOST_INSTRUCTIONS, MOST_REGISTERS, MOST_RESULTS, MOST_ROUTINES,
};
use super::refusal::{Place, Refusal};

/// The entry of a routine, without an offset.
#[derive(Clone, Copy, PartialEq, Eq, Debug)]
pub struct Entry {
    /// The number of instructions.
    pub count: u16,
    /// The number of registers that the routine takes.
    pub arguments: u8,
    /// The number of registers that the routine gives back.
    pub results: u8,
}

impl Entry {
    /// Whether it may be that of routine `r`, where the counts before it sum up to `before`.
    fn is_right(&self, r: usize, before: usize) -> bool {
        let is_wrong = self.count == 0
            || usize::from(self.arguments) > MOST_REGISTERS
            || self.results > MOST_RESULTS
            || before + usize::from(self.count) > MOST_INSTRUCTIONS
            || (r == 0 && (self.arguments != 0 || self.results != 0));
        !is_wrong
    }
}

/// The N entries and the T rows of a module, each from the start of its slice; it answers (N, T).
pub fn unpack(
    checked: &Checked,
    entries: &mut [Entry],
    rows: &mut [Row],
) -> Result<(usize, usize), Refusal> {
    let opened = checked.opened();
    let n = opened.routines();
    let t = opened.instructions();
    if entries.len() < n || rows.len() < t {
        return Err(Refusal::Room);
    }
    let mut k = 0;
    for (r, of) in checked.entries().iter().enumerate() {
        entries[r] = Entry {
            count: of.count,
            arguments: of.arguments,
            results: of.results,
        };
        for i in 0..of.count.into() {
            rows[k] = opened.row(r, i);
            k += 1;
        }
    }
    Ok((n, t))
}

/// What a module is put together from.
#[derive(Clone, Copy, Debug)]
pub struct Parts<'a> {
    pub entries: &'a [Entry],
    pub rows: &'a [Row],
    pub image: &'a [u8],
}

impl Parts<'_> {
    /// Tests 1 to 4, in their order.
    fn test(&self) -> Result<(), Refusal> {
        // 1. There are 1 to 64 entries, and at most 4,096 bytes of image.
        let n = self.entries.len();
        if !(1..=MOST_ROUTINES).contains(&n) || self.image.len() > LONGEST_IMAGE {
            return Err(Refusal::Counts);
        }
        // 2. Every entry is right, tested from routine 0 on.
        let mut t = 0;
        for (r, entry) in self.entries.iter().enumerate() {
            if !entry.is_right(r, t) {
                return Err(Refusal::Entry { routine: r as u16 });
            }
            t += usize::from(entry.count);
        }
        // 3. The number of rows is T.
        if self.rows.len() != t {
            return Err(Refusal::Entry {
                routine: (n - 1) as u16,
            });
        }
        // 4. Every row is well formed, tested in order of place.
        let wrong = self
            .places()
            .zip(self.rows)
            .find(|(_, row)| row.instruction().is_none());
        match wrong {
            Some((place, _)) => Err(Refusal::Form(place)),
            None => Ok(()),
        }
    }

    /// The place of each row.
    fn places(&self) -> impl Iterator<Item = Place> + '_ {
        let routines = (0..).zip(self.entries);
        routines.flat_map(|(routine, entry)| {
            (0..entry.count).map(move |instruction| Place {
                routine,
                instruction,
            })
        })
    }

    /// Header, entries with their offsets, rows and image.
    fn module(&self) -> Vec<u8> {
        let mut module = Vec::new();
        module.extend((self.entries.len() as u16).to_le_bytes());
        module.extend((self.image.len() as u16).to_le_bytes());
        let mut offset = 4 + 8 * self.entries.len();
        for entry in self.entries {
            module.extend((offset as u32).to_le_bytes());
            module.extend(entry.count.to_le_bytes());
            module.push(entry.arguments);
            module.push(entry.results);
            offset += 8 * usize::from(entry.count);
        }
        for row in self.rows {
            module.extend([row.op, row.a, row.b, row.c]);
            module.extend(row.n.to_le_bytes());
        }
        module.extend(self.image);
        module
    }
}

/// Puts a module together from the start of the output, and answers its length.
pub fn pack(parts: Parts, output: &mut [u8]) -> Result<usize, Refusal> {
    parts.test()?;
    let module = parts.module();
    // 5. The output has at least 4 + 8 × N + 8 × T + D bytes.
    if output.len() < module.len() {
        return Err(Refusal::Room);
    }
    output[..module.len()].copy_from_slice(&module);
    Ok(module.len())
}
