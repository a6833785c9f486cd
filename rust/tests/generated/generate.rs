//! Makes cases: long and short, sound and damaged, with a liking for ports, ends and edges.

use crate::case::Case;
use crate::micro_text;
use crate::random::Random;
use facetgrove_model::{normal, Cpu, Functions, Machine, Model, Plant, CP, MASC, MEMORY_WORDS, PP, REM, STORE_WORDS};

/// The case with this number. Damage is chosen so that most cases are sound.
pub fn case(seed: u64, number: u64) -> Case {
    let random = &mut Random::for_case(seed, number);
    match number % 32 {
        0..=7 => engine(random),
        8..=9 => Case::Press { machine: machine(random) },
        10..=15 => interpreter(random),
        16..=20 => {
            Case::Assemble { text: micro_text::text(random), store: vec![random.word().into(); store_length(random)] }
        }
        21..=22 => Case::List { store: store(random), room: room(random, &[0, 2815, 2816, 2817, 3000]) },
        23..=25 => Case::ImageRead { image: image(random), memory: vec![random.word(); memory_length(random)] },
        26 => Case::ImageWrite { memory: memory(random), room: room(random, &[0, 16367, 16368, 16369, 20000]) },
        27 => Case::ListingBack { store: good_store(random) },
        28 => Case::ImageBack { memory: good_memory(random) },
        29 => Case::NormalForms { machine: good_machine(random), cycles: random.within(0..=100) as u32 },
        _ => Case::Instruction { machine: machine_before_an_instruction(random) },
    }
}

fn engine(random: &mut Random) -> Case {
    let mut machine = machine(random);
    let refused_at_once = Model.engine_run(&mut machine, 0).answer != 0;
    let cycles = count_of_steps(random, refused_at_once, 300, 20_000);
    Case::Engine { machine, cycles }
}

fn interpreter(random: &mut Random) -> Case {
    let mut cpu = Cpu { plant: good_plant(random), cp: address(random), pp: address(random), ac: word_of_note(random) };
    damage_plant(random, &mut cpu.plant);
    raise(random, &mut cpu.cp);
    raise(random, &mut cpu.pp);
    let refused_at_once = Model.interpreter_run(&mut cpu, 0).answer != 0;
    let instructions = count_of_steps(random, refused_at_once, 60, 5_000);
    Case::Interpreter { cpu, instructions }
}

/// Any number at all where no step is taken, else mostly a small one.
fn count_of_steps(random: &mut Random, refused_at_once: bool, few: usize, many: usize) -> u32 {
    if refused_at_once {
        return random.next() as u32;
    }
    let most = if random.once_in(300) { many } else { few };
    random.within(0..=most) as u32
}

fn machine(random: &mut Random) -> Machine {
    let mut machine = good_machine(random);
    damage_plant(random, &mut machine.plant);
    damage_store(random, &mut machine.store);
    for register in [CP, PP, REM] {
        raise(random, &mut machine.registers[register]);
    }
    if random.once_in(40) {
        machine.line = random.pick(&[64, 65, 127, 255, 256, usize::MAX]);
    }
    if random.once_in(40) {
        machine.half = random.pick(&[3, 4, 255, 256, usize::MAX]);
    }
    machine
}

fn good_machine(random: &mut Random) -> Machine {
    let mut registers = [0; 8].map(|_| word_of_note(random));
    for register in [CP, PP, REM] {
        registers[register] = address(random);
    }
    if random.once_in(2) {
        registers[MASC] = 4095;
    }
    Machine {
        store: good_store(random),
        plant: good_plant(random),
        registers,
        line: if random.once_in(2) { 0 } else { random.within(0..=63) },
        half: random.within(0..=2),
    }
}

fn machine_before_an_instruction(random: &mut Random) -> Machine {
    let mut machine = Machine { store: facetgrove::printed_store().to_vec(), ..good_machine(random) };
    (machine.line, machine.half, machine.registers[MASC]) = (0, 0, 4095);
    machine
}

fn damage_plant(random: &mut Random, plant: &mut Plant) {
    plant.memory.resize(memory_length(random), 0);
    if random.once_in(40) {
        plant.place = plant.input.len() + random.pick(&[1, 2, 1 << 40]);
    }
    if random.once_in(40) {
        plant.count = plant.log.len() + random.pick(&[1, 2, 1 << 40]);
    }
}

fn good_plant(random: &mut Random) -> Plant {
    let input = words(random, 8);
    let longest_log = random.pick(&[0, 1, 3, 3, 8, 300]);
    let log = words(random, longest_log);
    Plant {
        memory: good_memory(random),
        place: random.within(0..=input.len()),
        input,
        count: random.within(0..=log.len()),
        log,
    }
}

fn words(random: &mut Random, most: usize) -> Vec<u16> {
    (0..random.within(0..=most)).map(|_| word_of_note(random)).collect()
}

fn memory(random: &mut Random) -> Vec<u16> {
    let mut memory = good_memory(random);
    memory.resize(memory_length(random), 0);
    memory
}

fn good_memory(random: &mut Random) -> Vec<u16> {
    let mut memory = vec![0; MEMORY_WORDS];
    match random.within(0..=9) {
        0 => {}
        1..=3 => fill(random, &mut memory, |word| word),
        4..=7 => fill(random, &mut memory, instruction),
        8 => fill(random, &mut memory, |word| 4092 + word % 4),
        _ => (0..10).for_each(|_| memory[usize::from(address(random))] = word_of_note(random)),
    }
    memory
}

/// Words made of random ones, four of each random number, since this is most of the work of making a case.
fn fill(random: &mut Random, memory: &mut [u16], made: impl Fn(u16) -> u16) {
    for words in memory.chunks_exact_mut(4) {
        let drawn = random.next();
        words.copy_from_slice(&[0, 16, 32, 48].map(|bit| made((drawn >> bit) as u16)));
    }
}

fn memory_length(random: &mut Random) -> usize {
    if random.once_in(40) {
        random.pick(&[0, 1, 64, 4091, 4095, 4097, 8192])
    } else {
        MEMORY_WORDS
    }
}

/// An instruction whose x is likely to reach a port, by itself or from a small PP.
fn instruction(word: u16) -> u16 {
    match word >> 4 & 3 {
        0 => word | 4092,
        1 => word & 0xF007,
        _ => word,
    }
}

fn word_of_note(random: &mut Random) -> u16 {
    match random.within(0..=3) {
        0 => random.pick(&[0, 1, 2, 4095, 4096, 32766, 32767, 32768, 32769, 65534, 65535]),
        1 => 4090 + random.word() % 8,
        _ => random.word(),
    }
}

fn address(random: &mut Random) -> u16 {
    match random.within(0..=3) {
        0 => random.pick(&[0, 1, 2, 4089, 4090, 4091]),
        1 => 4092 + random.word() % 4,
        _ => random.word() % 4096,
    }
}

/// Above 4,095, once in a while.
fn raise(random: &mut Random, address: &mut u16) {
    if random.once_in(60) {
        *address = random.pick(&[4096, 4097, 8191, 32768, 65535]);
    }
}

fn store(random: &mut Random) -> Vec<u32> {
    let mut store = good_store(random);
    damage_store(random, &mut store);
    store
}

fn damage_store(random: &mut Random, store: &mut Vec<u32>) {
    if random.once_in(20) {
        for _ in 0..random.within(1..=3) {
            store[random.within(0..=63)] = random.pick(&[8_388_608, RD | WR, 8_388_607, u32::MAX, 1 << 31]);
        }
    }
    store.resize(store_length(random), 0);
}

fn store_length(random: &mut Random) -> usize {
    if random.once_in(40) {
        random.pick(&[0, 1, 55, 63, 65, 128])
    } else {
        STORE_WORDS
    }
}

const RD: u32 = 1 << 9;
const WR: u32 = 1 << 8;

/// The printed microprogram, or random words: any, normal, few, or all with one kind of transfer.
fn good_store(random: &mut Random) -> Vec<u32> {
    let (words, transfer) = match random.within(0..=9) {
        0..=3 => return facetgrove::printed_store().to_vec(),
        4 => (random.within(0..=63), 0),
        5 => (STORE_WORDS, RD),
        6 => (STORE_WORDS, WR),
        _ => (STORE_WORDS, 0),
    };
    let normal_only = random.once_in(3);
    let mut store = vec![0; STORE_WORDS];
    for word in &mut store[..words] {
        let drawn = random.next() as u32 & 0x7F_FFFF;
        let transfers = if transfer == 0 { random.pick(&[0, RD, WR]) } else { transfer };
        let good = drawn & !(RD | WR) | transfers;
        *word = if normal_only { normal(good) } else { good };
    }
    store
}

fn room(random: &mut Random, lengths: &[usize]) -> Vec<u8> {
    let longest = lengths[lengths.len() - 1];
    let length = if random.once_in(4) { random.within(0..=longest) } else { random.pick(lengths) };
    vec![random.byte(); length]
}

/// An image of rising addresses, often damaged.
fn image(random: &mut Random) -> Vec<u8> {
    let most_steps = random.pick(&[1, 2, 50, 1000, 1000]);
    let most_records = if random.once_in(50) { MEMORY_WORDS } else { 40 };
    let mut image = Vec::new();
    let mut address = random.within(0..=most_steps) as u16;
    for _ in 0..random.within(0..=most_records) {
        if address > 4091 && !random.once_in(20) {
            break;
        }
        let value = word_of_note(random).max(u16::from(!random.once_in(200)));
        image.extend(address.to_be_bytes());
        image.extend(value.to_be_bytes());
        address += random.within(1..=most_steps) as u16;
    }
    if random.once_in(2) {
        damage_image(random, &mut image);
    }
    image
}

fn damage_image(random: &mut Random, image: &mut Vec<u8>) {
    if image.is_empty() {
        return image.push(random.byte());
    }
    let at = random.within(0..=image.len() - 1);
    let record = at / 4 * 4;
    match random.within(0..=5) {
        0 => image[at] = random.byte(),
        1 => image.insert(at, random.byte()),
        2 => drop(image.remove(at)),
        3 => image.truncate(at),
        4 => image.extend_from_within(record..),
        _ => image.rotate_left(record),
    }
}
