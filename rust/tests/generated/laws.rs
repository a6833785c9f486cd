//! Laws of document 01 that speak of several functions at once, each with what breaks it.

use crate::case::compare;
use crate::show::differing;
use facetgrove_model::{normal, Cpu, Functions, Machine, Told, AC, CP, PP, STORE_WORDS, TABLE_CYCLES};

const PORTS_FROM: usize = 4092;

/// Assembling a listing gives the normal forms.
pub fn listing_back(tested: &dyn Functions, store: &[u32]) -> Option<String> {
    let mut room = vec![0; facetgrove::LISTING_ROOM];
    let listed = tested.micro_list(store, &mut room);
    if listed.answer != 0 {
        return Some(format!("the lister refused: {listed:?}"));
    }
    let mut back = vec![u32::MAX; STORE_WORDS];
    let assembled = tested.micro_assemble(&room[..listed.done as usize], &mut back);
    let expected: Vec<u32> = store.iter().map(|&word| normal(word)).collect();
    (assembled.answer != 0 || back != expected)
        .then(|| format!("assembler {assembled:?}\n{}", differing("assembled", &back, "normal", &expected)))
}

/// Reading what was written gives back words 0 to 4,091, and writing what was read the same bytes.
pub fn image_back(tested: &dyn Functions, memory: &[u16]) -> Option<String> {
    let (written, image) = write_image(tested, memory);
    let mut back = vec![u16::MAX; memory.len()];
    let read = tested.image_read(&image, &mut back);
    let mut expected = memory.to_vec();
    expected[PORTS_FROM..].fill(0);
    let (again, image_again) = write_image(tested, &back);
    (written.answer != 0 || read.answer != 0 || again != written || back != expected || image != image_again).then(
        || {
            format!(
                "written {written:?}, read {read:?}, again {again:?}\n{}\n{}",
                differing("read", &back, "memory", &expected),
                differing("image again", &image_again, "image", &image)
            )
        },
    )
}

fn write_image(tested: &dyn Functions, memory: &[u16]) -> (Told, Vec<u8>) {
    let mut room = vec![0; facetgrove::IMAGE_ROOM];
    let told = tested.image_write(memory, &mut room);
    room.truncate(told.done as usize);
    (told, room)
}

/// A word and its normal form give the same cycles.
pub fn normal_forms(tested: &dyn Functions, machine: &Machine, cycles: u32) -> Option<String> {
    let run_normal = |lent: &mut Machine| {
        let written = lent.store.clone();
        lent.store = written.iter().map(|&word| normal(word)).collect();
        let told = tested.engine_run(lent, cycles);
        lent.store = written;
        told
    };
    compare(machine, |lent| tested.engine_run(lent, cycles), run_normal)
}

/// The printed microprogram first comes back to line 0 after the table's cycles, with all that the interpreter leaves.
pub fn instruction(tested: &dyn Functions, machine: &Machine) -> Option<String> {
    let before = cpu_of(machine);
    let mut cpu = before.clone();
    let interpreted = tested.interpreter_run(&mut cpu, 1);
    let table_cycles = TABLE_CYCLES[usize::from(before.plant.clone().read(before.cp) >> 12)];

    let mut engine = machine.clone();
    let (answer, cycles) = press_to_line_0(tested, &mut engine);
    let mut by_engine = cpu_of(&engine);
    let expected_cycles = if interpreted.answer == 5 { table_cycles - 1 } else { table_cycles };
    if interpreted.answer == 5 {
        // The engine stops inside the instruction, where only memory and log must be as at the start.
        by_engine = Cpu { plant: by_engine.plant, ..cpu.clone() };
        by_engine.plant.place = cpu.plant.place;
    }
    let expected_told = match interpreted.answer {
        0 => Told { answer: 0, done: 1, extra: table_cycles },
        _ => Told::answer(5),
    };
    (interpreted != expected_told || answer != interpreted.answer || cycles != expected_cycles || by_engine != cpu)
        .then(|| {
            format!(
                "interpreter {interpreted:?}, engine answer {answer} after {cycles} cycles, table {table_cycles}\n{}",
                differing("engine", &by_engine, "interpreter", &cpu)
            )
        })
}

/// Presses until the control line is 0 again or a press is refused; gives the last answer and the cycles done.
fn press_to_line_0(tested: &dyn Functions, machine: &mut Machine) -> (u32, u64) {
    let longest = TABLE_CYCLES[15];
    for cycles in 1..=longest + 1 {
        let told = tested.press(machine);
        if told.answer != 0 {
            return (told.answer, cycles - 1);
        }
        if machine.line == 0 {
            return (0, cycles);
        }
    }
    (0, u64::MAX)
}

fn cpu_of(machine: &Machine) -> Cpu {
    let registers = machine.registers;
    Cpu { plant: machine.plant.clone(), cp: registers[CP], pp: registers[PP], ac: registers[AC] }
}
