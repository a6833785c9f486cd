//! The model with a record of what it answered.

use facetgrove_model::{Cpu, Functions, Machine, Model, Told};
use std::cell::RefCell;
use std::collections::BTreeSet;

#[derive(Default)]
pub struct Recorder(RefCell<BTreeSet<(&'static str, u32)>>);

impl Recorder {
    /// The different answers that a function gave, in order.
    pub fn answers(&self, function: &str) -> Vec<u32> {
        self.0.borrow().iter().filter(|(name, _)| *name == function).map(|&(_, answer)| answer).collect()
    }

    fn record(&self, function: &'static str, told: Told) -> Told {
        self.0.borrow_mut().insert((function, told.answer));
        told
    }
}

impl Functions for Recorder {
    fn engine_run(&self, machine: &mut Machine, cycles: u32) -> Told {
        self.record("engine_run", Model.engine_run(machine, cycles))
    }

    fn press(&self, machine: &mut Machine) -> Told {
        self.record("press", Model.press(machine))
    }

    fn interpreter_run(&self, cpu: &mut Cpu, instructions: u32) -> Told {
        self.record("interpreter_run", Model.interpreter_run(cpu, instructions))
    }

    fn micro_assemble(&self, text: &[u8], store: &mut [u32]) -> Told {
        self.record("micro_assemble", Model.micro_assemble(text, store))
    }

    fn micro_list(&self, store: &[u32], room: &mut [u8]) -> Told {
        self.record("micro_list", Model.micro_list(store, room))
    }

    fn image_read(&self, image: &[u8], memory: &mut [u16]) -> Told {
        self.record("image_read", Model.image_read(image, memory))
    }

    fn image_write(&self, memory: &[u16], room: &mut [u8]) -> Told {
        self.record("image_write", Model.image_write(memory, room))
    }
}
