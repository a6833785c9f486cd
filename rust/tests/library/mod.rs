//! The library as the tests call it: on the model's records, by the safe functions and by the C interface under them.

use facetgrove::{raw, Half, Refusal};
use facetgrove_model::{Cpu, Functions, Machine, Told};

/// The safe functions; what their types cannot express goes to the C interface.
pub struct Safe;

/// The C interface.
pub struct Raw;

impl Functions for Safe {
    fn engine_run(&self, machine: &mut Machine, cycles: u32) -> Told {
        let Some(mut state) = safe_machine(machine) else {
            return Raw.engine_run(machine, cycles);
        };
        let plant = &mut machine.plant;
        let ran =
            facetgrove::engine_run(&machine.store, &mut plant.memory, &plant.input, &mut plant.log, &mut state, cycles);
        put_back(state, machine);
        told(ran.outcome, ran.done.into(), 0)
    }

    fn press(&self, machine: &mut Machine) -> Told {
        let Some(mut state) = safe_machine(machine) else {
            return Raw.press(machine);
        };
        let plant = &mut machine.plant;
        let outcome = facetgrove::press(&mut state, &mut plant.memory, &plant.input, &mut plant.log, &machine.store);
        put_back(state, machine);
        told(outcome, outcome.is_ok().into(), 0)
    }

    fn interpreter_run(&self, cpu: &mut Cpu, instructions: u32) -> Told {
        let plant = &mut cpu.plant;
        let mut state = facetgrove::Cpu { cp: cpu.cp, pp: cpu.pp, ac: cpu.ac, place: plant.place, count: plant.count };
        let ran =
            facetgrove::interpreter_run(&mut plant.memory, &plant.input, &mut plant.log, &mut state, instructions);
        (cpu.cp, cpu.pp, cpu.ac) = (state.cp, state.pp, state.ac);
        (plant.place, plant.count) = (state.place, state.count);
        told(ran.outcome, ran.done.into(), ran.cycles)
    }

    fn micro_assemble(&self, text: &[u8], store: &mut [u32]) -> Told {
        told(facetgrove::micro_assemble(text, store), 0, 0)
    }

    fn micro_list(&self, store: &[u32], room: &mut [u8]) -> Told {
        let listed = facetgrove::micro_list(store, room);
        told(listed.map(|_| ()), listed.unwrap_or(0) as u64, 0)
    }

    fn image_read(&self, image: &[u8], memory: &mut [u16]) -> Told {
        told(facetgrove::image_read(image, memory), 0, 0)
    }

    fn image_write(&self, memory: &[u16], room: &mut [u8]) -> Told {
        let written = facetgrove::image_write(memory, room);
        told(written.map(|_| ()), written.unwrap_or(0) as u64, 0)
    }
}

/// The machine's state by the library's types, if they can express it.
fn safe_machine(machine: &Machine) -> Option<facetgrove::Machine> {
    Some(facetgrove::Machine {
        registers: machine.registers,
        line: u8::try_from(machine.line).ok()?,
        half: *[Half::Nothing, Half::Read, Half::Write].get(machine.half)?,
        place: machine.plant.place,
        count: machine.plant.count,
    })
}

fn put_back(state: facetgrove::Machine, machine: &mut Machine) {
    machine.registers = state.registers;
    machine.line = state.line.into();
    machine.half = state.half as usize;
    machine.plant.place = state.place;
    machine.plant.count = state.count;
}

fn told(outcome: Result<(), Refusal>, done: u64, extra: u64) -> Told {
    match outcome {
        Ok(()) => Told { answer: 0, done, extra },
        Err(Refusal::ControlWord { line }) => Told { answer: 4, done, extra: line as u64 },
        Err(refusal) => Told { answer: refusal.number(), done, extra },
    }
}

/// What a call of the C interface tells of the machine, whose place, count, line and half done it takes as one list.
fn told_by(machine: &mut Machine, call: impl FnOnce(&mut Machine, &mut [usize; 4], &mut [usize; 2]) -> u32) -> Told {
    let mut state = [machine.plant.place, machine.plant.count, machine.line, machine.half];
    let mut said = [usize::MAX; 2];
    let answer = call(machine, &mut state, &mut said);
    [machine.plant.place, machine.plant.count, machine.line, machine.half] = state;
    Told { answer, done: said[0] as u64, extra: said[1] as u64 }
}

impl Functions for Raw {
    fn engine_run(&self, machine: &mut Machine, cycles: u32) -> Told {
        told_by(machine, |machine, state, said| {
            let plant = &mut machine.plant;
            // SAFETY: every pointer comes from a list or an array with its length, and those written to are borrowed
            // alone.
            unsafe {
                raw::facetgrove_engine_run(
                    machine.store.as_ptr(),
                    machine.store.len(),
                    plant.memory.as_mut_ptr(),
                    plant.memory.len(),
                    plant.input.as_ptr(),
                    plant.input.len(),
                    plant.log.as_mut_ptr(),
                    plant.log.len(),
                    &mut machine.registers,
                    state,
                    cycles,
                    said,
                )
            }
        })
    }

    fn press(&self, machine: &mut Machine) -> Told {
        told_by(machine, |machine, state, said| {
            let plant = &mut machine.plant;
            // SAFETY: every pointer comes from a list or an array with its length, and those written to are borrowed
            // alone.
            unsafe {
                raw::facetgrove_press(
                    &mut machine.registers,
                    state,
                    plant.memory.as_mut_ptr(),
                    plant.memory.len(),
                    plant.input.as_ptr(),
                    plant.input.len(),
                    plant.log.as_mut_ptr(),
                    plant.log.len(),
                    machine.store.as_ptr(),
                    machine.store.len(),
                    said,
                )
            }
        })
    }

    fn interpreter_run(&self, cpu: &mut Cpu, instructions: u32) -> Told {
        let plant = &mut cpu.plant;
        let mut registers = [cpu.cp, cpu.ac, cpu.pp];
        let mut state = [plant.place, plant.count];
        let mut said = [u64::MAX; 2];
        // SAFETY: every pointer comes from a list or an array with its length, and those written to are borrowed alone.
        let answer = unsafe {
            raw::facetgrove_interpreter_run(
                plant.memory.as_mut_ptr(),
                plant.memory.len(),
                plant.input.as_ptr(),
                plant.input.len(),
                plant.log.as_mut_ptr(),
                plant.log.len(),
                &mut registers,
                &mut state,
                instructions,
                &mut said,
            )
        };
        [cpu.cp, cpu.ac, cpu.pp] = registers;
        [plant.place, plant.count] = state;
        Told { answer, done: said[0], extra: said[1] }
    }

    fn micro_assemble(&self, text: &[u8], store: &mut [u32]) -> Told {
        // SAFETY: both pointers come from slices with their lengths, and the store is borrowed alone.
        Told::answer(unsafe {
            raw::facetgrove_micro_assemble(text.as_ptr(), text.len(), store.as_mut_ptr(), store.len())
        })
    }

    fn micro_list(&self, store: &[u32], room: &mut [u8]) -> Told {
        let mut said = [usize::MAX; 2];
        // SAFETY: every pointer comes from a slice or an array with its length, and the room is borrowed alone.
        let answer = unsafe {
            raw::facetgrove_micro_list(store.as_ptr(), store.len(), room.as_mut_ptr(), room.len(), &mut said)
        };
        Told { answer, done: said[0] as u64, extra: said[1] as u64 }
    }

    fn image_read(&self, image: &[u8], memory: &mut [u16]) -> Told {
        // SAFETY: both pointers come from slices with their lengths, and memory is borrowed alone.
        Told::answer(unsafe {
            raw::facetgrove_image_read(image.as_ptr(), image.len(), memory.as_mut_ptr(), memory.len())
        })
    }

    fn image_write(&self, memory: &[u16], room: &mut [u8]) -> Told {
        let mut said = [usize::MAX];
        // SAFETY: every pointer comes from a slice or an array with its length, and the room is borrowed alone.
        let answer = unsafe {
            raw::facetgrove_image_write(memory.as_ptr(), memory.len(), room.as_mut_ptr(), room.len(), &mut said)
        };
        Told { answer, done: said[0] as u64, extra: 0 }
    }
}
