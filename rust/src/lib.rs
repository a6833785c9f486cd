//! Facetgrove for Rust: the plant's cycle engine, interpreter, microassembler, lister and memory images.
//!
//! The work is done by the proved library, `target/lib/libfacetgrove.a`; here its C interface gets Rust's types.
//! Every function takes any values and either does the work or refuses with a number of document 01 ([`Refusal`]).
//! Memory is 4,096 words and a control store 64, both lent by the caller; nothing is kept between calls.
//!
//! Two instructions, LOCO 5 and STOR 4094, put the word 5 in the log:
//!
//! ```
//! use facetgrove::{interpreter_run, Cpu, Refusal, MEMORY_WORDS};
//!
//! let mut memory = [0u16; MEMORY_WORDS];
//! memory[..2].copy_from_slice(&[0x9005, 0x1FFE]);
//! let (mut log, mut cpu) = ([0u16; 1], Cpu::default());
//! let ran = interpreter_run(&mut memory, &[], &mut log, &mut cpu, 2);
//! assert_eq!((ran.outcome, ran.done, ran.cycles), (Ok(()), 2, 7 + 9));
//! assert_eq!((log, cpu.count, cpu.ac), ([5], 1, 5));
//!
//! // The log is full now: the same two instructions again stop before the store, and nothing is lost.
//! cpu.cp = 0;
//! let ran = interpreter_run(&mut memory, &[], &mut log, &mut cpu, 2);
//! assert_eq!((ran.outcome, ran.done, cpu.cp), (Err(Refusal::LogFull), 1, 1));
//! ```

#![warn(missing_docs)]

pub mod raw;
mod refusal;

pub use refusal::Refusal;

/// The words of main memory.
pub const MEMORY_WORDS: usize = 4096;

/// The words of a control store.
pub const STORE_WORDS: usize = 64;

/// The longest micro text that is assembled, in bytes.
pub const TEXT_BYTES: usize = 8192;

/// The least room for a listing, in bytes; no listing is longer.
pub const LISTING_ROOM: usize = 2816;

/// The least room for an image, in bytes; no image is longer.
pub const IMAGE_ROOM: usize = 16368;

/// The indices of the registers in [`Machine::registers`].
pub mod register {
    /// The address of the next instruction, 12 bits.
    pub const CP: usize = 0;
    /// The accumulator.
    pub const AC: usize = 1;
    /// The address of the stack's top, 12 bits.
    pub const PP: usize = 2;
    /// The instruction.
    pub const RI: usize = 3;
    /// The instruction as it is shifted.
    pub const RT: usize = 4;
    /// The mask for the instruction's x; 4,095 for the printed microprogram.
    pub const MASC: usize = 5;
    /// The address of a memory transfer, 12 bits.
    pub const REM: usize = 6;
    /// The word of a memory transfer.
    pub const RDM: usize = 7;
}

/// The memory transfer that the last cycle left half done.
#[derive(Clone, Copy, Debug, Default, PartialEq, Eq, Hash)]
pub enum Half {
    /// No transfer.
    #[default]
    Nothing,
    /// A read, which the next cycle completes if it has RD.
    Read,
    /// A write, which the next cycle completes if it has WR.
    Write,
}

/// The engine's state outside memory, log and input.
///
/// CP, PP and REM above 4,095 and a line above 63 can be written down, since a saved state may hold them; a run refuses
/// them with [`Refusal::RegisterOrLine`].
#[derive(Clone, Copy, Debug, Default, PartialEq, Eq, Hash)]
pub struct Machine {
    /// The eight registers by number, see [`register`].
    pub registers: [u16; 8],
    /// The control line, CMP.
    pub line: u8,
    /// The transfer left half done.
    pub half: Half,
    /// How many input words have been taken.
    pub place: usize,
    /// How many words the log holds.
    pub count: usize,
}

/// The interpreter's state outside memory, log and input.
///
/// CP and PP above 4,095 are refused by a run with [`Refusal::RegisterOrLine`].
#[derive(Clone, Copy, Debug, Default, PartialEq, Eq, Hash)]
pub struct Cpu {
    /// The address of the next instruction.
    pub cp: u16,
    /// The address of the stack's top.
    pub pp: u16,
    /// The accumulator.
    pub ac: u16,
    /// How many input words have been taken.
    pub place: usize,
    /// How many words the log holds.
    pub count: usize,
}

/// What a run of the engine tells.
#[must_use]
#[derive(Clone, Copy, Debug, PartialEq, Eq)]
pub struct Ran {
    /// The cycles carried out: all that were asked for, or those before the refused one.
    pub done: u32,
    /// Whether all was done, or why not.
    pub outcome: Result<(), Refusal>,
}

/// What a run of the interpreter tells.
#[must_use]
#[derive(Clone, Copy, Debug, PartialEq, Eq)]
pub struct Interpreted {
    /// The instructions carried out: all that were asked for, or those before the refused one.
    pub done: u32,
    /// The machine cycles that these instructions take.
    pub cycles: u64,
    /// Whether all was done, or why not.
    pub outcome: Result<(), Refusal>,
}

/// Runs `cycles` cycles of the engine on a control store.
///
/// Refuses, in this order and before any cycle, with [`Refusal::WrongSize`], [`Refusal::PlaceOrCount`],
/// [`Refusal::RegisterOrLine`] or [`Refusal::ControlWord`]; these leave memory, log and machine as found.
/// [`Refusal::LogFull`] leaves them as they were before the refused cycle.
///
/// ```
/// use facetgrove::{engine_run, printed_store, register, Machine};
///
/// let mut memory = [0u16; 4096];
/// memory[0] = 0x9005; // LOCO 5
/// let mut machine = Machine::default();
/// machine.registers[register::MASC] = 4095;
/// let ran = engine_run(&printed_store(), &mut memory, &[], &mut [], &mut machine, 7);
/// assert_eq!((ran.done, ran.outcome), (7, Ok(())));
/// assert_eq!((machine.line, machine.registers[register::AC]), (0, 5));
/// ```
pub fn engine_run(
    store: &[u32],
    memory: &mut [u16],
    input: &[u16],
    log: &mut [u16],
    machine: &mut Machine,
    cycles: u32,
) -> Ran {
    if let Err(refusal) = store_length(store).and(memory_length(memory)) {
        return Ran { done: 0, outcome: Err(refusal) };
    }
    let ([done, line], answer) = machine.told_by(|registers, state, told| {
        // SAFETY: every pointer comes from a slice or an array with the length beside it, and those written to are
        // borrowed alone.
        unsafe {
            raw::facetgrove_engine_run(
                store.as_ptr(),
                store.len(),
                memory.as_mut_ptr(),
                memory.len(),
                input.as_ptr(),
                input.len(),
                log.as_mut_ptr(),
                log.len(),
                registers,
                state,
                cycles,
                told,
            )
        }
    });
    Ran {
        done: u32::try_from(done).expect("no more cycles than were asked for"),
        outcome: refusal::outcome(answer, line),
    }
}

/// Presses the operator's panel once: the engine's run of 1 on the same values, refusals included.
///
/// Any refusal leaves machine, memory and log as found.
///
/// ```
/// use facetgrove::{press, printed_store, Half, Machine};
///
/// let mut machine = Machine::default();
/// press(&mut machine, &mut [0; 4096], &[], &mut [], &printed_store())?;
/// assert_eq!((machine.line, machine.half), (1, Half::Read));
/// # Ok::<(), facetgrove::Refusal>(())
/// ```
pub fn press(
    machine: &mut Machine,
    memory: &mut [u16],
    input: &[u16],
    log: &mut [u16],
    store: &[u32],
) -> Result<(), Refusal> {
    store_length(store).and(memory_length(memory))?;
    let ([_, line], answer) = machine.told_by(|registers, state, told| {
        // SAFETY: every pointer comes from a slice or an array with the length beside it, and those written to are
        // borrowed alone.
        unsafe {
            raw::facetgrove_press(
                registers,
                state,
                memory.as_mut_ptr(),
                memory.len(),
                input.as_ptr(),
                input.len(),
                log.as_mut_ptr(),
                log.len(),
                store.as_ptr(),
                store.len(),
                told,
            )
        }
    });
    refusal::outcome(answer, line)
}

/// Runs `instructions` instructions of the interpreter.
///
/// Refuses, in this order and before any instruction, with [`Refusal::WrongSize`], [`Refusal::PlaceOrCount`] or
/// [`Refusal::RegisterOrLine`]; these leave memory, log and CPU as found. [`Refusal::LogFull`] leaves them as they were
/// before the whole refused instruction, input place included.
pub fn interpreter_run(
    memory: &mut [u16],
    input: &[u16],
    log: &mut [u16],
    cpu: &mut Cpu,
    instructions: u32,
) -> Interpreted {
    if let Err(refusal) = memory_length(memory) {
        return Interpreted { done: 0, cycles: 0, outcome: Err(refusal) };
    }
    let mut registers = [cpu.cp, cpu.ac, cpu.pp];
    let mut state = [cpu.place, cpu.count];
    let mut told = [0; 2];
    // SAFETY: every pointer comes from a slice or an array with the length beside it, and those written to are borrowed
    // alone.
    let answer = unsafe {
        raw::facetgrove_interpreter_run(
            memory.as_mut_ptr(),
            memory.len(),
            input.as_ptr(),
            input.len(),
            log.as_mut_ptr(),
            log.len(),
            &mut registers,
            &mut state,
            instructions,
            &mut told,
        )
    };
    [cpu.cp, cpu.ac, cpu.pp] = registers;
    [cpu.place, cpu.count] = state;
    let [done, cycles] = told;
    Interpreted {
        done: u32::try_from(done).expect("no more instructions than were asked for"),
        cycles,
        outcome: refusal::outcome(answer, 0),
    }
}

/// Assembles micro text into the 64 words of a control store; lines that the text lacks become zero words.
///
/// Refuses with [`Refusal::WrongSize`], [`Refusal::TextLength`], and then with the first faulty line's
/// [`Refusal::LineTooMany`], [`Refusal::LineNumber`], [`Refusal::Grammar`], [`Refusal::Target`] or [`Refusal::Parts`],
/// in this order. Any refusal leaves the store as found.
///
/// ```
/// let mut store = [0u32; 64];
/// facetgrove::micro_assemble(b"0: rem:=cp; rd;\n", &mut store)?;
/// assert_eq!(store[0], 107008);
/// assert_eq!(facetgrove::micro_assemble(b"0: goto 64;\n", &mut store), Err(facetgrove::Refusal::Target));
/// # Ok::<(), facetgrove::Refusal>(())
/// ```
pub fn micro_assemble(text: &[u8], store: &mut [u32]) -> Result<(), Refusal> {
    store_length(store)?;
    // SAFETY: both pointers come from slices with the length beside them, and the store is borrowed alone.
    let answer = unsafe { raw::facetgrove_micro_assemble(text.as_ptr(), text.len(), store.as_mut_ptr(), store.len()) };
    refusal::outcome(answer, 0)
}

/// Lists a control store at the start of the room and gives the listing's length; the room past it stays as found.
///
/// Refuses, in this order, with [`Refusal::WrongSize`], [`Refusal::ListingRoom`], [`Refusal::ControlWord`] or
/// [`Refusal::ListingEnd`]. Any refusal leaves the room as found.
///
/// ```
/// let mut room = [0u8; facetgrove::LISTING_ROOM];
/// let length = facetgrove::micro_list(&facetgrove::printed_store(), &mut room)?;
/// assert!(room[..length].starts_with(b"0: rem:=cp; rd;\n1: cp:=cp+1; rd;\n"));
/// # Ok::<(), facetgrove::Refusal>(())
/// ```
pub fn micro_list(store: &[u32], room: &mut [u8]) -> Result<usize, Refusal> {
    store_length(store)?;
    let mut told = [0; 2];
    // SAFETY: every pointer comes from a slice or an array with the length beside it, and the room is borrowed alone.
    let answer =
        unsafe { raw::facetgrove_micro_list(store.as_ptr(), store.len(), room.as_mut_ptr(), room.len(), &mut told) };
    let [length, line] = told;
    refusal::outcome(answer, line).map(|()| length)
}

/// Reads an image into memory: all 4,096 words are set, to 0 where the image has no record.
///
/// Refuses with [`Refusal::WrongSize`], [`Refusal::ImageLength`], and then with the first faulty record's
/// [`Refusal::RecordAddress`], [`Refusal::RecordOrder`] or [`Refusal::RecordValue`], in this order. Any refusal leaves
/// memory as found.
///
/// ```
/// let mut memory = [0u16; 4096];
/// facetgrove::image_read(&[0x00, 0x00, 0x90, 0x05], &mut memory)?;
/// assert_eq!(memory[0], 0x9005);
/// # Ok::<(), facetgrove::Refusal>(())
/// ```
pub fn image_read(image: &[u8], memory: &mut [u16]) -> Result<(), Refusal> {
    memory_length(memory)?;
    // SAFETY: both pointers come from slices with the length beside them, and memory is borrowed alone.
    let answer = unsafe { raw::facetgrove_image_read(image.as_ptr(), image.len(), memory.as_mut_ptr(), memory.len()) };
    refusal::outcome(answer, 0)
}

/// Writes the image of a memory at the start of the room and gives its length; the room past it stays as found.
///
/// Refuses, in this order, with [`Refusal::WrongSize`] or [`Refusal::ImageRoom`]. Any refusal leaves the room as found.
///
/// ```
/// let mut memory = [0u16; 4096];
/// memory[258] = 7;
/// let mut room = [0u8; facetgrove::IMAGE_ROOM];
/// let length = facetgrove::image_write(&memory, &mut room)?;
/// assert_eq!(room[..length], [0x01, 0x02, 0x00, 0x07]);
/// # Ok::<(), facetgrove::Refusal>(())
/// ```
pub fn image_write(memory: &[u16], room: &mut [u8]) -> Result<usize, Refusal> {
    memory_length(memory)?;
    let mut length = [0];
    // SAFETY: every pointer comes from a slice or an array with the length beside it, and the room is borrowed alone.
    let answer = unsafe {
        raw::facetgrove_image_write(memory.as_ptr(), memory.len(), room.as_mut_ptr(), room.len(), &mut length)
    };
    refusal::outcome(answer, 0).map(|()| length[0])
}

/// The printed microprogram: Figure 5.10 of the course text on lines 0 to 54, then zero words.
pub fn printed_store() -> [u32; STORE_WORDS] {
    let mut store = [0; STORE_WORDS];
    // SAFETY: the pointer is to 64 words that are borrowed alone.
    unsafe { raw::facetgrove_printed_store(&mut store) };
    store
}

/// Refusal 1 comes before any other in every function, so a length may be tested before the call.
fn memory_length(memory: &[u16]) -> Result<(), Refusal> {
    (memory.len() == MEMORY_WORDS).then_some(()).ok_or(Refusal::WrongSize)
}

/// As for memory.
fn store_length(store: &[u32]) -> Result<(), Refusal> {
    (store.len() == STORE_WORDS).then_some(()).ok_or(Refusal::WrongSize)
}

impl Machine {
    /// Hands the machine to the C interface as its lists, takes over what it left, and gives what it told and answered.
    fn told_by(
        &mut self,
        call: impl FnOnce(&mut [u16; 8], &mut [usize; 4], &mut [usize; 2]) -> u32,
    ) -> ([usize; 2], u32) {
        let mut state = [self.place, self.count, self.line.into(), self.half as usize];
        let mut told = [0; 2];
        let answer = call(&mut self.registers, &mut state, &mut told);
        let [place, count, line, half] = state;
        self.place = place;
        self.count = count;
        self.line = u8::try_from(line).expect("a line is at most 63, or as it was found");
        self.half = match half {
            0 => Half::Nothing,
            1 => Half::Read,
            2 => Half::Write,
            other => panic!("the library left {other} half done, which is neither nothing, a read nor a write"),
        };
        (told, answer)
    }
}
