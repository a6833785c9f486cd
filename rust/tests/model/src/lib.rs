//! A model of document 01, written from that paper alone, naively and to be read beside it.
//!
//! It shares nothing with the library. Each function works on plain records that hold everything lent to a call, so that
//! a test can hand two copies of one record to the library and to the model and compare all of it afterwards.

mod engine;
mod figure;
mod image;
mod interpreter;
mod micro_text;
mod microword;
mod plant;

pub use engine::{Machine, AC, CP, MASC, PP, REGISTER_NAMES, REM};
pub use figure::FIGURE_5_10;
pub use interpreter::{Cpu, TABLE_CYCLES};
pub use micro_text::{assemble, assemble_line, lines};
pub use microword::normal;
pub use plant::Plant;

pub const MEMORY_WORDS: usize = 4096;
pub const STORE_WORDS: usize = 64;

/// What a function of document 01 tells besides the words it leaves.
///
/// `done` is cycles or instructions carried out, or bytes written; `extra` the line that answer 4 names, or the sum of
/// the table's cycles.
#[derive(Clone, Copy, Debug, PartialEq, Eq)]
pub struct Told {
    pub answer: u32,
    pub done: u64,
    pub extra: u64,
}

impl Told {
    /// An answer with nothing more to tell.
    pub fn answer(answer: u32) -> Told {
        Told { answer, done: 0, extra: 0 }
    }

    /// Answer 4, which names a line.
    pub fn bad_word(line: usize) -> Told {
        Told { answer: 4, done: 0, extra: line as u64 }
    }
}

/// The functions of document 01; whoever has them can be held against another who has.
pub trait Functions {
    fn engine_run(&self, machine: &mut Machine, cycles: u32) -> Told;
    fn press(&self, machine: &mut Machine) -> Told;
    fn interpreter_run(&self, cpu: &mut Cpu, instructions: u32) -> Told;
    fn micro_assemble(&self, text: &[u8], store: &mut [u32]) -> Told;
    fn micro_list(&self, store: &[u32], room: &mut [u8]) -> Told;
    fn image_read(&self, image: &[u8], memory: &mut [u16]) -> Told;
    fn image_write(&self, memory: &[u16], room: &mut [u8]) -> Told;
}

/// The model.
pub struct Model;

impl Functions for Model {
    fn engine_run(&self, machine: &mut Machine, cycles: u32) -> Told {
        machine.run(cycles)
    }

    fn press(&self, machine: &mut Machine) -> Told {
        machine.run(1)
    }

    fn interpreter_run(&self, cpu: &mut Cpu, instructions: u32) -> Told {
        cpu.run(instructions)
    }

    fn micro_assemble(&self, text: &[u8], store: &mut [u32]) -> Told {
        Told::answer(micro_text::assemble(text, store))
    }

    fn micro_list(&self, store: &[u32], room: &mut [u8]) -> Told {
        micro_text::list(store, room)
    }

    fn image_read(&self, image: &[u8], memory: &mut [u16]) -> Told {
        Told::answer(image::read(image, memory))
    }

    fn image_write(&self, memory: &[u16], room: &mut [u8]) -> Told {
        image::write(memory, room)
    }
}
