//! The model with a fault planted in it, to show that the cases find such faults and that they are made small.

use facetgrove_model::{Cpu, Functions, Machine, Model, Told, AC};

#[derive(Clone, Copy)]
pub enum Faulty {
    /// SUBL with the operands turned round.
    SublTurned,
    /// N taken from AC instead of the computed value.
    NegativeFromAc,
    /// Target 63 answered 14.
    Target63Refused,
    /// Word 4,091 left out of images.
    LastWordLeftOut,
}

impl Functions for Faulty {
    fn engine_run(&self, machine: &mut Machine, cycles: u32) -> Told {
        let Faulty::NegativeFromAc = self else {
            return Model.engine_run(machine, cycles);
        };
        let mut sum = Model.engine_run(machine, 0);
        while sum.answer == 0 && sum.done < cycles.into() {
            let (line, negative) = (machine.line, machine.registers[AC] >= 32768);
            let told = Model.engine_run(machine, 1);
            let word = machine.store[line] as usize;
            if told.answer == 0 && word >> 6 & 3 == 1 {
                machine.line = if negative { word & 63 } else { (line + 1) % 64 };
            }
            sum = Told { answer: told.answer, done: sum.done + told.done, extra: 0 };
        }
        sum
    }

    fn press(&self, machine: &mut Machine) -> Told {
        self.engine_run(machine, 1)
    }

    fn interpreter_run(&self, cpu: &mut Cpu, instructions: u32) -> Told {
        let Faulty::SublTurned = self else {
            return Model.interpreter_run(cpu, instructions);
        };
        let mut sum = Model.interpreter_run(cpu, 0);
        while sum.answer == 0 && sum.done < instructions.into() {
            let is_subl = cpu.plant.clone().read(cpu.cp) >> 12 == 5;
            let told = Model.interpreter_run(cpu, 1);
            if is_subl {
                cpu.ac = cpu.ac.wrapping_neg();
            }
            sum = Told { answer: told.answer, done: sum.done + told.done, extra: sum.extra + told.extra };
        }
        sum
    }

    fn micro_assemble(&self, text: &[u8], store: &mut [u32]) -> Told {
        let found = store.to_vec();
        let told = Model.micro_assemble(text, store);
        if matches!(self, Faulty::Target63Refused) && told.answer == 0 && store.iter().any(|word| word & 63 == 63) {
            store.copy_from_slice(&found);
            return Told::answer(14);
        }
        told
    }

    fn micro_list(&self, store: &[u32], room: &mut [u8]) -> Told {
        Model.micro_list(store, room)
    }

    fn image_read(&self, image: &[u8], memory: &mut [u16]) -> Told {
        Model.image_read(image, memory)
    }

    fn image_write(&self, memory: &[u16], room: &mut [u8]) -> Told {
        let mut written = memory.to_vec();
        if let (Faulty::LastWordLeftOut, Some(word)) = (self, written.get_mut(4091)) {
            *word = 0;
        }
        Model.image_write(&written, room)
    }
}
