//! The figures that document 01 gives to hold the library against, by the safe functions.

use facetgrove::register::{AC, CP, MASC};
use facetgrove::{
    engine_run, interpreter_run, micro_assemble, printed_store, Cpu, Machine, Refusal, MEMORY_WORDS, STORE_WORDS,
};

#[test]
fn micro_text_gives_the_printed_words() {
    let figures = [
        ("rem:=cp; rd", 107008),
        ("cp:=cp+1; rd", 9728),
        ("ri:=rdm; if n then goto 28", 7397468),
        ("rt:=(<<ri); if n then goto 17", 3225681),
        ("cp:=(ri^masc); goto 0", 3814592),
        ("rem:=(ac^masc); wr; goto 11", 1816011),
        ("wr; goto 0", 448),
        ("ac:=ac; if z then goto 25", 1073305),
    ];
    for (parts, word) in figures {
        assert_eq!(assembled(parts), Ok(word), "{parts}");
    }
}

#[test]
fn targets_end_at_63() {
    assert_eq!(assembled("goto 63"), Ok(3 << 6 | 63));
    assert_eq!(assembled("goto 64"), Err(Refusal::Target));
    assert_eq!(assembled("goto 100"), Err(Refusal::Grammar));
}

fn assembled(parts: &str) -> Result<u32, Refusal> {
    let mut store = [0; STORE_WORDS];
    micro_assemble(format!("0: {parts}").as_bytes(), &mut store).map(|()| store[0])
}

#[test]
fn jneg_jumps_from_32768_on() {
    const JNEG_9: u16 = 0x7009;
    assert_eq!(after_one(JNEG_9, Cpu { ac: 32768, ..Cpu::default() }).0.cp, 9);
    assert_eq!(after_one(JNEG_9, Cpu { ac: 32767, ..Cpu::default() }).0.cp, 1);
}

#[test]
fn a_push_with_pp_0_goes_to_a_port_and_is_lost() {
    const PUSH: u16 = 0xC000;
    let (cpu, memory) = after_one(PUSH, Cpu { ac: 7, ..Cpu::default() });
    assert_eq!((cpu.pp, memory[4095]), (4095, 0));
}

#[test]
fn a_call_as_the_last_word_stores_the_first_port() {
    const CALL_0: u16 = 0xA000;
    let (cpu, memory) = after_one(CALL_0, Cpu { cp: 4091, pp: 100, ..Cpu::default() });
    assert_eq!((cpu.cp, cpu.pp, memory[99]), (0, 99, 4092));
}

/// What one instruction at CP leaves, with no input and no log.
fn after_one(instruction: u16, mut cpu: Cpu) -> (Cpu, [u16; MEMORY_WORDS]) {
    let mut memory = [0; MEMORY_WORDS];
    memory[usize::from(cpu.cp)] = instruction;
    assert_eq!(interpreter_run(&mut memory, &[], &mut [], &mut cpu, 1).outcome, Ok(()));
    (cpu, memory)
}

#[test]
fn a_full_log_stops_both_machines_before_the_store() {
    let mut memory = [0; MEMORY_WORDS];
    memory[..2].copy_from_slice(&[0x9005, 0x1FFE]);

    let mut cpu = Cpu::default();
    let interpreted = interpreter_run(&mut memory, &[], &mut [], &mut cpu, 1000);
    assert_eq!((interpreted.outcome, interpreted.done, cpu.cp), (Err(Refusal::LogFull), 1, 1));

    let mut machine = Machine::default();
    machine.registers[MASC] = 4095;
    let ran = engine_run(&printed_store(), &mut memory, &[], &mut [], &mut machine, 1000);
    assert_eq!((ran.outcome, ran.done, machine.line), (Err(Refusal::LogFull), 15, 11));
    assert_eq!((machine.registers[CP], machine.registers[AC]), (2, 5));
}
