//! Makes a case smaller for as long as it still differs.

use crate::case::Case;
use facetgrove_model::{lines, Cpu, Functions, Machine, Model, Plant, MASC};
use std::ops::Range;

type Smaller<'a, T> = Box<dyn Iterator<Item = T> + 'a>;

/// The smallest case that is reached by single steps, each of which still differs.
pub fn shrink(mut case: Case, differs: impl Fn(&Case) -> bool) -> Case {
    loop {
        let found = smaller(&case).find(&differs);
        match found {
            Some(found) => case = found,
            None => return case,
        }
    }
}

/// The cases that are one step smaller, large steps first.
fn smaller(case: &Case) -> Smaller<'_, Case> {
    match case {
        Case::Engine { machine, cycles } => Box::new(
            lower(*cycles)
                .map(|cycles| Case::Engine { machine: machine.clone(), cycles })
                .chain(lower(*cycles).map(move |left| later_machine(machine, cycles - left, left)))
                .chain(machines(machine).map(|machine| Case::Engine { machine, cycles: *cycles })),
        ),
        Case::Press { machine } => Box::new(machines(machine).map(|machine| Case::Press { machine })),
        Case::Interpreter { cpu, instructions } => Box::new(
            lower(*instructions)
                .map(|instructions| Case::Interpreter { cpu: cpu.clone(), instructions })
                .chain(lower(*instructions).map(move |left| later_cpu(cpu, instructions - left, left)))
                .chain(cpus(cpu).map(|cpu| Case::Interpreter { cpu, instructions: *instructions })),
        ),
        Case::Assemble { text, store } => Box::new(
            without_a_line(text)
                .chain(without_a_piece(text, 1))
                .map(|text| Case::Assemble { text, store: store.clone() })
                .chain(zeroed(store).map(|store| Case::Assemble { text: text.clone(), store })),
        ),
        Case::List { store, room } => Box::new(
            zeroed(store)
                .chain(without_a_bit(store))
                .map(|store| Case::List { store, room: room.clone() })
                .chain(rooms(room).map(|room| Case::List { store: store.clone(), room })),
        ),
        Case::ImageRead { image, memory } => Box::new(
            without_a_piece(image, 4)
                .chain(zeroed(image))
                .map(|image| Case::ImageRead { image, memory: memory.clone() })
                .chain(zeroed(memory).map(|memory| Case::ImageRead { image: image.clone(), memory })),
        ),
        Case::ImageWrite { memory, room } => Box::new(
            zeroed(memory)
                .chain(without_a_bit(memory))
                .map(|memory| Case::ImageWrite { memory, room: room.clone() })
                .chain(rooms(room).map(|room| Case::ImageWrite { memory: memory.clone(), room })),
        ),
        Case::ListingBack { store } => {
            Box::new(zeroed(store).chain(without_a_bit(store)).map(|store| Case::ListingBack { store }))
        }
        Case::ImageBack { memory } => {
            Box::new(zeroed(memory).chain(without_a_bit(memory)).map(|memory| Case::ImageBack { memory }))
        }
        Case::NormalForms { machine, cycles } => Box::new(
            lower(*cycles)
                .map(|cycles| Case::NormalForms { machine: machine.clone(), cycles })
                .chain(machines(machine).map(|machine| Case::NormalForms { machine, cycles: *cycles })),
        ),
        Case::Instruction { machine } => {
            Box::new(machines(machine).filter(is_before_an_instruction).map(|machine| Case::Instruction { machine }))
        }
    }
}

/// The law of one instruction speaks of such states only, so a smaller case must be one too.
fn is_before_an_instruction(machine: &Machine) -> bool {
    machine.store == facetgrove::printed_store()
        && machine.registers[MASC] == 4095
        && machine.plant.place_and_count_fit()
}

/// The machine after its first cycles, with the others left.
fn later_machine(machine: &Machine, first: u32, left: u32) -> Case {
    let mut machine = machine.clone();
    Model.engine_run(&mut machine, first);
    Case::Engine { machine, cycles: left }
}

/// The same for instructions.
fn later_cpu(cpu: &Cpu, first: u32, left: u32) -> Case {
    let mut cpu = cpu.clone();
    Model.interpreter_run(&mut cpu, first);
    Case::Interpreter { cpu, instructions: left }
}

fn machines(machine: &Machine) -> Smaller<'_, Machine> {
    let with_registers =
        |registers: Vec<u16>| Machine { registers: registers.try_into().expect("eight registers"), ..machine.clone() };
    Box::new(
        zeroed(&machine.store)
            .chain(without_a_bit(&machine.store))
            .map(|store| Machine { store, ..machine.clone() })
            .chain(plants(&machine.plant).map(|plant| Machine { plant, ..machine.clone() }))
            .chain(zeroed(&machine.registers).chain(without_a_bit(&machine.registers)).map(with_registers))
            .chain(lower(machine.line).map(|line| Machine { line, ..machine.clone() }))
            .chain(lower(machine.half).map(|half| Machine { half, ..machine.clone() })),
    )
}

fn cpus(cpu: &Cpu) -> Smaller<'_, Cpu> {
    Box::new(
        plants(&cpu.plant)
            .map(|plant| Cpu { plant, ..cpu.clone() })
            .chain(lower(cpu.cp).map(|cp| Cpu { cp, ..cpu.clone() }))
            .chain(lower(cpu.pp).map(|pp| Cpu { pp, ..cpu.clone() }))
            .chain(lower(cpu.ac).map(|ac| Cpu { ac, ..cpu.clone() })),
    )
}

fn plants(plant: &Plant) -> Smaller<'_, Plant> {
    Box::new(
        zeroed(&plant.memory)
            .chain(without_a_bit(&plant.memory))
            .map(|memory| Plant { memory, ..plant.clone() })
            .chain(lower(plant.place).map(|place| Plant { place, ..plant.clone() }))
            .chain(lower(plant.count).map(|count| Plant { count, ..plant.clone() }))
            .chain(shorter(&plant.input).map(|input| Plant { input, ..plant.clone() }))
            .chain(shorter(&plant.log).map(|log| Plant { log, ..plant.clone() })),
    )
}

/// Lower numbers: 0, then less and less below the number, down to one less.
fn lower<T: Copy + TryFrom<u64> + TryInto<u64>>(number: T) -> impl Iterator<Item = T> {
    let number: u64 = number.try_into().unwrap_or(0);
    let steps = std::iter::successors(Some(number), |step| Some(step / 2)).take_while(|&step| step > 0);
    steps.filter_map(move |step| T::try_from(number - step).ok())
}

/// Pieces of a list of this length: the whole, halves, quarters, down to pieces of the least size.
fn pieces(length: usize, least: usize) -> impl Iterator<Item = Range<usize>> {
    let sizes = std::iter::successors(Some(length), |size| Some(size / 2));
    let sizes = sizes.map(move |size| size / least * least).take_while(|&size| size > 0);
    sizes.flat_map(move |size| (0..length).step_by(size).map(move |start| start..length.min(start + size)))
}

/// Every piece of a short list, the longest first.
fn all_pieces(length: usize) -> impl Iterator<Item = Range<usize>> {
    let sizes = (1..=length).rev().filter(move |_| length <= 100);
    sizes.flat_map(move |size| (0..=length - size).map(move |start| start..start + size))
}

fn without_a_piece<T: Clone>(list: &[T], least: usize) -> impl Iterator<Item = Vec<T>> + '_ {
    let candidates = pieces(list.len(), least).chain(all_pieces(list.len()));
    candidates.map(|piece| [&list[..piece.start], &list[piece.end..]].concat())
}

/// The list with a piece of it 0 that was not.
fn zeroed<T: Copy + Default + PartialEq>(list: &[T]) -> impl Iterator<Item = Vec<T>> + '_ {
    let zero = T::default();
    pieces(list.len(), 1).filter(move |piece| list[piece.clone()].iter().any(|&item| item != zero)).map(move |piece| {
        let mut smaller = list.to_vec();
        smaller[piece].fill(zero);
        smaller
    })
}

/// The list with one bit of one word 0 that was 1, for words that are alone in being needed.
fn without_a_bit<T>(list: &[T]) -> impl Iterator<Item = Vec<T>> + '_
where
    T: Copy + Into<u64> + TryFrom<u64>,
{
    let indices = (0..list.len()).filter(|&index| list[index].into() != 0);
    indices.flat_map(move |index| {
        let word: u64 = list[index].into();
        let bits = (0..64).rev().filter(move |bit| word >> bit & 1 == 1);
        bits.filter_map(move |bit| {
            let mut smaller = list.to_vec();
            smaller[index] = T::try_from(word & !(1 << bit)).ok()?;
            Some(smaller)
        })
    })
}

/// The room zeroed or shortened.
fn rooms(room: &[u8]) -> impl Iterator<Item = Vec<u8>> + '_ {
    let all_zero = room.iter().any(|&byte| byte != 0).then(|| vec![0; room.len()]);
    all_zero.into_iter().chain(lower(room.len()).map(|length| room[..length].to_vec()))
}

/// The list without its end, or with words 0.
fn shorter<T: Copy + Default + PartialEq>(list: &[T]) -> impl Iterator<Item = Vec<T>> + '_ {
    lower(list.len()).map(|length| list[..length].to_vec()).chain(zeroed(list))
}

/// The text without one line, the lines after it numbered anew.
fn without_a_line(text: &[u8]) -> impl Iterator<Item = Vec<u8>> + '_ {
    let count = lines(text).count();
    (0..count).map(move |gone| {
        let kept = lines(text).enumerate().filter(|&(number, _)| number != gone);
        let renumbered =
            kept.map(|(number, line)| if number > gone { numbered_one_less(number, line) } else { line.to_vec() });
        renumbered.collect::<Vec<_>>().join(&b'\n')
    })
}

fn numbered_one_less(number: usize, line: &[u8]) -> Vec<u8> {
    let spaces = line.iter().take_while(|&&byte| byte == b' ').count();
    match line[spaces..].strip_prefix(number.to_string().as_bytes()) {
        Some(rest) => [(number - 1).to_string().as_bytes(), rest].concat(),
        None => line.to_vec(),
    }
}
