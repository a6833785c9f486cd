//! The cycle engine, one cycle at a time.

use crate::microword::{is_good, take_apart};
use crate::plant::{LogFull, Plant};
use crate::{Told, STORE_WORDS};

pub const CP: usize = 0;
pub const AC: usize = 1;
pub const PP: usize = 2;
pub const MASC: usize = 5;
pub const REM: usize = 6;
const RDM: usize = 7;

pub const REGISTER_NAMES: [&str; 8] = ["cp", "ac", "pp", "ri", "rt", "masc", "rem", "rdm"];

const NOTHING: usize = 0;
const READ: usize = 1;
const WRITE: usize = 2;

/// Everything that is lent to a run of the engine.
#[derive(Clone, Debug, Default, PartialEq, Eq)]
pub struct Machine {
    pub store: Vec<u32>,
    pub plant: Plant,
    pub registers: [u16; 8],
    pub line: usize,
    /// The transfer left half done: 0 nothing, 1 a read, 2 a write.
    pub half: usize,
}

impl Machine {
    pub(crate) fn run(&mut self, cycles: u32) -> Told {
        if let Some(refusal) = self.refusal_before_any_cycle() {
            return refusal;
        }
        for done in 0..cycles {
            if self.cycle().is_err() {
                return Told { answer: 5, done: done.into(), extra: 0 };
            }
        }
        Told { answer: 0, done: cycles.into(), extra: 0 }
    }

    fn refusal_before_any_cycle(&self) -> Option<Told> {
        if !self.plant.memory_fits() || self.store.len() != STORE_WORDS {
            return Some(Told::answer(1));
        }
        if !self.plant.place_and_count_fit() {
            return Some(Told::answer(2));
        }
        // That a half done above 2 is refused here is the project's own decision.
        if [CP, PP, REM].iter().any(|&register| self.registers[register] > 4095) || self.line > 63 || self.half > 2 {
            return Some(Told::answer(3));
        }
        self.store.iter().position(|&word| !is_good(word)).map(Told::bad_word)
    }

    /// One cycle; with the log full it changes nothing.
    fn cycle(&mut self) -> Result<(), LogFull> {
        let word = take_apart(self.store[self.line]);
        let a = self.registers[word.a as usize];
        let b = self.registers[word.b as usize];
        let result = match word.f {
            0 => a,
            1 => a.wrapping_add(1),
            2 => a.wrapping_sub(1),
            3 => a.wrapping_add(b),
            4 => a.wrapping_sub(b),
            5 => a & b,
            6 => a << 1,
            _ => a >> 1,
        };
        let negative = result >= 32768;
        let zero = result == 0;

        let mut registers = self.registers;
        if word.hs {
            registers[word.s as usize] = match word.s as usize {
                CP | PP | REM => result % 4096,
                _ => result,
            };
        }

        let half = match (word.rd, word.wr) {
            (true, _) if self.half == READ => {
                registers[RDM] = self.plant.read(registers[REM]);
                NOTHING
            }
            (true, _) => READ,
            (_, true) if self.half == WRITE => {
                self.plant.write(registers[REM], registers[RDM])?;
                NOTHING
            }
            (_, true) => WRITE,
            _ => NOTHING,
        };

        let jumps = match word.sq {
            0 => false,
            1 => negative,
            2 => zero,
            _ => true,
        };
        self.line = if jumps { word.end as usize } else { (self.line + 1) % STORE_WORDS };
        self.half = half;
        self.registers = registers;
        Ok(())
    }
}
