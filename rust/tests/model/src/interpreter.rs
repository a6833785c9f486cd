//! The direct interpreter of the sixteen instructions.

use crate::plant::{LogFull, Plant};
use crate::Told;

/// The cycles of each instruction, by its code.
pub const TABLE_CYCLES: [u64; 16] = [9, 9, 9, 9, 10, 9, 8, 8, 7, 7, 10, 9, 10, 11, 10, 11];

/// Everything that is lent to a run of the interpreter.
#[derive(Clone, Debug, Default, PartialEq, Eq)]
pub struct Cpu {
    pub plant: Plant,
    pub cp: u16,
    pub pp: u16,
    pub ac: u16,
}

impl Cpu {
    pub(crate) fn run(&mut self, instructions: u32) -> Told {
        if !self.plant.memory_fits() {
            return Told::answer(1);
        }
        if !self.plant.place_and_count_fit() {
            return Told::answer(2);
        }
        if self.cp > 4095 || self.pp > 4095 {
            return Told::answer(3);
        }
        let mut cycles = 0;
        for done in 0..instructions {
            match self.instruction_or_nothing() {
                Ok(taken) => cycles += taken,
                Err(LogFull) => return Told { answer: 5, done: done.into(), extra: cycles },
            }
        }
        Told { answer: 0, done: instructions.into(), extra: cycles }
    }

    /// One instruction; with the log full it changes nothing, since a write is the last act on the plant.
    fn instruction_or_nothing(&mut self) -> Result<u64, LogFull> {
        let before = (self.cp, self.pp, self.ac, self.plant.place);
        let taken = self.instruction();
        if taken.is_err() {
            (self.cp, self.pp, self.ac, self.plant.place) = before;
        }
        taken
    }

    fn instruction(&mut self) -> Result<u64, LogFull> {
        let word = self.plant.read(self.cp);
        self.cp = (self.cp + 1) % 4096;
        let (code, x) = (word / 4096, word % 4096);
        match code {
            0 => self.ac = self.plant.read(x),
            1 => self.plant.write(x, self.ac)?,
            2 => self.ac = self.ac.wrapping_add(self.plant.read(x)),
            3 => self.ac = self.ac.wrapping_sub(self.plant.read(x)),
            4 => self.ac = self.ac.wrapping_add(self.plant.read((self.pp + x) % 4096)),
            5 => self.ac = self.ac.wrapping_sub(self.plant.read((self.pp + x) % 4096)),
            6 if self.ac == 0 => self.cp = x,
            6 => {}
            7 if (self.ac as i16) < 0 => self.cp = x,
            7 => {}
            8 => self.cp = x,
            9 => self.ac = x,
            10 => {
                self.push(self.cp)?;
                self.cp = x;
            }
            11 => self.cp = self.pop() % 4096,
            12 => self.push(self.ac)?,
            13 => {
                let word = self.plant.read(self.ac % 4096);
                self.push(word)?;
            }
            14 => self.ac = self.pop(),
            _ => {
                let word = self.pop();
                self.plant.write(self.ac % 4096, word)?;
            }
        }
        Ok(TABLE_CYCLES[usize::from(code)])
    }

    fn push(&mut self, word: u16) -> Result<(), LogFull> {
        self.pp = (self.pp + 4095) % 4096;
        self.plant.write(self.pp, word)
    }

    fn pop(&mut self) -> u16 {
        let word = self.plant.read(self.pp);
        self.pp = (self.pp + 1) % 4096;
        word
    }
}
