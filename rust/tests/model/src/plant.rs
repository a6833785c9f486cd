//! Main memory and the ports: what a completed transfer reaches.

use crate::MEMORY_WORDS;

/// Memory, input and log as they are lent to a run, with the input's place and the log's count.
#[derive(Clone, Debug, Default, PartialEq, Eq)]
pub struct Plant {
    pub memory: Vec<u16>,
    pub input: Vec<u16>,
    pub place: usize,
    pub log: Vec<u16>,
    pub count: usize,
}

/// A write to 4094 with the log full.
pub struct LogFull;

impl Plant {
    /// If not, the answer is 1.
    pub fn memory_fits(&self) -> bool {
        self.memory.len() == MEMORY_WORDS
    }

    /// If not, the answer is 2.
    pub fn place_and_count_fit(&self) -> bool {
        self.place <= self.input.len() && self.count <= self.log.len()
    }

    pub fn read(&mut self, address: u16) -> u16 {
        let input_waits = self.place < self.input.len();
        let log_has_room = self.count < self.log.len();
        match address {
            4092 if input_waits => {
                self.place += 1;
                self.input[self.place - 1]
            }
            4092 => 0,
            4093 => ready(input_waits),
            4094 => 0,
            4095 => ready(log_has_room),
            _ => self.memory[usize::from(address)],
        }
    }

    pub fn write(&mut self, address: u16, word: u16) -> Result<(), LogFull> {
        match address {
            4094 if self.count == self.log.len() => return Err(LogFull),
            4094 => {
                self.log[self.count] = word;
                self.count += 1;
            }
            4092 | 4093 | 4095 => {}
            _ => self.memory[usize::from(address)] = word,
        }
        Ok(())
    }
}

fn ready(yes: bool) -> u16 {
    if yes {
        32768
    } else {
        0
    }
}
