//! The plain Rust version: engine, interpreter, assembler, lister and images straight from document 01, in safe Rust with
//! nothing proved. It is here to be measured against; plain.h says the rest. Only the edge to C, at the end, is unsafe.

const MEMORY_WORDS: usize = 4096;
const STORE_WORDS: usize = 64;
const PORTS: u16 = 4092;
const FLAG: u16 = 32768;

type Memory = [u16; MEMORY_WORDS];
type Store = [u32; STORE_WORDS];

/// Memory and ports.
struct Bus<'a> {
    memory: &'a mut Memory,
    input: &'a [u16],
    place: usize,
    log: &'a mut [u16],
    count: usize,
}

/// A word for a log that is full.
struct Full;

impl Bus<'_> {
    #[inline(always)]
    fn read(&mut self, address: u16) -> u16 {
        if address < PORTS { self.memory[address as usize] } else { self.read_port(address) }
    }

    #[inline(always)]
    fn read_port(&mut self, address: u16) -> u16 {
        match address {
            4092 => match self.input.get(self.place) {
                Some(&word) => {
                    self.place += 1;
                    word
                }
                None => 0,
            },
            4093 => flag(self.place < self.input.len()),
            4094 => 0,
            _ => flag(self.count < self.log.len()),
        }
    }

    #[inline(always)]
    fn write(&mut self, address: u16, word: u16) -> Result<(), Full> {
        if address < PORTS {
            self.memory[address as usize] = word;
        } else if address == 4094 {
            *self.log.get_mut(self.count).ok_or(Full)? = word;
            self.count += 1;
        }
        Ok(())
    }
}

fn flag(holds: bool) -> u16 {
    if holds { FLAG } else { 0 }
}

// Engine.

const CP: usize = 0;
const PP: usize = 2;
const REM: usize = 6;
const RDM: usize = 7;

#[derive(Clone, Copy, PartialEq)]
enum Half {
    Nothing,
    Read,
    Write,
}

fn first_bad(store: &Store) -> Option<usize> {
    store.iter().position(|&word| word >= 1 << 23 || word >> 8 & 3 == 3)
}

fn compute(f: u32, a: u16, b: u16) -> u16 {
    match f {
        0 => a,
        1 => a.wrapping_add(1),
        2 => a.wrapping_sub(1),
        3 => a.wrapping_add(b),
        4 => a.wrapping_sub(b),
        5 => a & b,
        6 => a << 1,
        _ => a >> 1,
    }
}

/// CP, PP and REM keep 12 bits.
fn kept(s: usize, value: u16) -> u16 {
    if matches!(s, CP | PP | REM) { value & 4095 } else { value }
}

fn next_line(word: u32, line: usize, result: u16) -> usize {
    let end = (word & 63) as usize;
    let next = (line + 1) & 63;
    match word >> 6 & 3 {
        0 => next,
        1 => if result >= 0x8000 { end } else { next },
        2 => if result == 0 { end } else { next },
        _ => end,
    }
}

struct Machine {
    registers: [u16; 8],
    line: usize,
    half: Half,
}

impl Machine {
    /// One cycle; a refused one leaves everything as it was.
    #[inline(always)]
    fn cycle(&mut self, store: &Store, bus: &mut Bus) -> Result<(), Full> {
        let word = store[self.line & 63];
        let field = |low: u32| (word >> low & 7) as usize;
        let s = field(14);
        let result = compute(word >> 10 & 7, self.registers[field(20)], self.registers[field(17)]);
        let before = self.registers[s];
        if word >> 13 & 1 == 1 {
            self.registers[s] = kept(s, result);
        }
        let half = self.half;
        self.half = Half::Nothing;
        if word >> 9 & 1 == 1 {
            if half == Half::Read {
                self.registers[RDM] = bus.read(self.registers[REM]);
            } else {
                self.half = Half::Read;
            }
        } else if word >> 8 & 1 == 1 {
            if half == Half::Write {
                if let Err(full) = bus.write(self.registers[REM], self.registers[RDM]) {
                    self.registers[s] = before;
                    self.half = half;
                    return Err(full);
                }
            } else {
                self.half = Half::Write;
            }
        }
        self.line = next_line(word, self.line, result);
        Ok(())
    }
}

/// What an engine run is lent beside its bus.
struct EngineState<'a> {
    registers: &'a mut [u16; 8],
    state: &'a mut [usize; 4],
    told: &'a mut [usize; 2],
}

fn run_engine(store: &[u32], memory: &mut [u16], input: &[u16], log: &mut [u16], lent: EngineState, cycles: u32) -> u32 {
    *lent.told = [0, 0];
    let [place, count, line, half] = *lent.state;
    let (Ok(store), Ok(memory)) = (<&Store>::try_from(store), <&mut Memory>::try_from(memory)) else {
        return 1;
    };
    if place > input.len() || count > log.len() {
        return 2;
    }
    let half = match half {
        0 => Half::Nothing,
        1 => Half::Read,
        2 => Half::Write,
        _ => return 3,
    };
    let registers = *lent.registers;
    if registers[CP] > 4095 || registers[PP] > 4095 || registers[REM] > 4095 || line > 63 {
        return 3;
    }
    if let Some(bad) = first_bad(store) {
        lent.told[1] = bad;
        return 4;
    }
    let mut bus = Bus { memory, input, place, log, count };
    let mut machine = Machine { registers, line, half };
    let mut done = 0;
    let mut answer = 0;
    while done < cycles {
        if machine.cycle(store, &mut bus).is_err() {
            answer = 5;
            break;
        }
        done += 1;
    }
    *lent.registers = machine.registers;
    *lent.state = [bus.place, bus.count, machine.line, machine.half as usize];
    lent.told[0] = done as usize;
    answer
}

// Interpreter.

struct Cpu {
    cp: u16,
    ac: u16,
    pp: u16,
}

impl Cpu {
    /// One instruction and its cycles; a refused one leaves everything as it was.
    #[inline(always)]
    fn instruction(&mut self, bus: &mut Bus) -> Result<u64, Full> {
        let place = bus.place;
        let acted = self.act(bus);
        if acted.is_err() {
            bus.place = place;
        }
        acted
    }

    /// The same, but for the input place, which a refused instruction may have moved.
    #[inline(always)]
    fn act(&mut self, bus: &mut Bus) -> Result<u64, Full> {
        let word = bus.read(self.cp);
        let x = word & 4095;
        let next = (self.cp + 1) & 4095;
        let below = self.pp.wrapping_sub(1) & 4095;
        let above = (self.pp + 1) & 4095;
        let local = (self.pp + x) & 4095;
        let named = self.ac & 4095;
        let mut cp = next;
        let cycles = match word >> 12 {
            0 => {
                self.ac = bus.read(x);
                9
            }
            1 => {
                bus.write(x, self.ac)?;
                9
            }
            2 => {
                self.ac = self.ac.wrapping_add(bus.read(x));
                9
            }
            3 => {
                self.ac = self.ac.wrapping_sub(bus.read(x));
                9
            }
            4 => {
                self.ac = self.ac.wrapping_add(bus.read(local));
                10
            }
            5 => {
                self.ac = self.ac.wrapping_sub(bus.read(local));
                9
            }
            6 => {
                if self.ac == 0 {
                    cp = x;
                }
                8
            }
            7 => {
                if self.ac >= 0x8000 {
                    cp = x;
                }
                8
            }
            8 => {
                cp = x;
                7
            }
            9 => {
                self.ac = x;
                7
            }
            10 => {
                bus.write(below, next)?;
                self.pp = below;
                cp = x;
                10
            }
            11 => {
                cp = bus.read(self.pp) & 4095;
                self.pp = above;
                9
            }
            12 => {
                bus.write(below, self.ac)?;
                self.pp = below;
                10
            }
            13 => {
                let read = bus.read(named);
                bus.write(below, read)?;
                self.pp = below;
                11
            }
            14 => {
                self.ac = bus.read(self.pp);
                self.pp = above;
                10
            }
            _ => {
                let read = bus.read(self.pp);
                bus.write(named, read)?;
                self.pp = above;
                11
            }
        };
        self.cp = cp;
        Ok(cycles)
    }
}

/// What an interpreter run is lent beside its bus.
struct CpuState<'a> {
    registers: &'a mut [u16; 3],
    state: &'a mut [usize; 2],
    told: &'a mut [u64; 2],
}

fn run_interpreter(memory: &mut [u16], input: &[u16], log: &mut [u16], lent: CpuState, instructions: u32) -> u32 {
    *lent.told = [0, 0];
    let [place, count] = *lent.state;
    let [cp, ac, pp] = *lent.registers;
    let Ok(memory) = <&mut Memory>::try_from(memory) else {
        return 1;
    };
    if place > input.len() || count > log.len() {
        return 2;
    }
    if cp > 4095 || pp > 4095 {
        return 3;
    }
    let mut bus = Bus { memory, input, place, log, count };
    let mut cpu = Cpu { cp, ac, pp };
    let mut done = 0;
    let mut sum = 0;
    let mut answer = 0;
    while done < instructions {
        let Ok(cycles) = cpu.instruction(&mut bus) else {
            answer = 5;
            break;
        };
        sum += cycles;
        done += 1;
    }
    *lent.registers = [cpu.cp, cpu.ac, cpu.pp];
    *lent.state = [bus.place, bus.count];
    *lent.told = [done.into(), sum];
    answer
}

// Assembler.

struct Cursor<'a> {
    text: &'a [u8],
    at: usize,
}

/// What the parts of a line have given so far.
#[derive(Default)]
struct Line {
    operation: bool,
    transfer: bool,
    jump: bool,
    stores: bool,
    far: bool,
    twice: bool,
    sq: u32,
    word: u32,
}

fn register(name: &[u8]) -> Option<u32> {
    match name {
        b"cp" => Some(0),
        b"ac" => Some(1),
        b"pp" => Some(2),
        b"ri" => Some(3),
        b"rt" => Some(4),
        b"masc" => Some(5),
        b"rem" => Some(6),
        b"rdm" => Some(7),
        _ => None,
    }
}

/// Each `take` gives None where the grammar wants something else.
impl<'a> Cursor<'a> {
    /// The byte here; the end of the text ends a line as byte 10 does.
    fn peek(&self) -> u8 {
        self.text.get(self.at).copied().unwrap_or(b'\n')
    }

    fn peek_token(&mut self) -> u8 {
        while self.peek() == b' ' {
            self.at += 1;
        }
        self.peek()
    }

    fn take_sign(&mut self, sign: u8) -> Option<()> {
        if self.peek_token() != sign {
            return None;
        }
        self.at += 1;
        Some(())
    }

    /// A sign of two bytes with nothing between them.
    fn take_pair(&mut self, first: u8, second: u8) -> Option<()> {
        self.take_sign(first)?;
        if self.peek() != second {
            return None;
        }
        self.at += 1;
        Some(())
    }

    /// The bytes from here on that pass the test.
    fn take_while(&mut self, test: fn(&u8) -> bool) -> &'a [u8] {
        self.peek_token();
        let rest = &self.text[self.at..];
        let length = rest.iter().position(|byte| !test(byte)).unwrap_or(rest.len());
        self.at += length;
        &rest[..length]
    }

    fn take_word(&mut self) -> &'a [u8] {
        self.take_while(u8::is_ascii_lowercase)
    }

    /// A run of one or two digits with no leading zero.
    fn take_number(&mut self) -> Option<u32> {
        match *self.take_while(u8::is_ascii_digit) {
            [digit] => Some(u32::from(digit - b'0')),
            [ten, one] if ten != b'0' => Some(u32::from(ten - b'0') * 10 + u32::from(one - b'0')),
            _ => None,
        }
    }

    fn take_register(&mut self) -> Option<u32> {
        register(self.take_word())
    }

    /// Behind a sign: 1, where F has a number for it, or a register. F and B in their places.
    fn take_second(&mut self, with_one: Option<u32>, with_register: u32) -> Option<u32> {
        self.at += 1;
        if let (Some(f), b'1') = (with_one, self.peek_token()) {
            return if self.take_number() == Some(1) { Some(f << 10) } else { None };
        }
        Some(with_register << 10 | self.take_register()? << 17)
    }

    /// A formula: A, B and F in their places.
    fn take_formula(&mut self) -> Option<u32> {
        let first = self.peek_token();
        if first == b'<' || first == b'>' {
            self.take_pair(first, first)?;
            let f = if first == b'<' { 6 } else { 7 };
            return Some(self.take_register()? << 20 | f << 10);
        }
        let a = self.take_register()? << 20;
        match self.peek_token() {
            b'+' => Some(a | self.take_second(Some(1), 3)?),
            b'-' => Some(a | self.take_second(Some(2), 4)?),
            b'^' => Some(a | self.take_second(None, 5)?),
            _ => Some(a),
        }
    }

    /// An operation that stores to a register, or for `alu` nowhere.
    fn take_operation(&mut self, to: Option<u32>, line: &mut Line) -> Option<()> {
        self.take_pair(b':', b'=')?;
        let bracket = self.take_sign(b'(').is_some();
        line.word |= self.take_formula()?;
        if bracket {
            self.take_sign(b')')?;
        }
        line.twice |= line.operation;
        line.operation = true;
        line.stores = to.is_some();
        line.word |= to.map_or(0, |s| s << 14 | 1 << 13);
        Some(())
    }

    fn take_target(&mut self, sq: u32, line: &mut Line) -> Option<()> {
        let target = self.take_number()?;
        line.far |= target >= 64;
        line.twice |= line.jump;
        line.jump = true;
        line.sq = sq;
        line.word |= sq << 6 | target & 63;
        Some(())
    }

    fn take_test(&mut self, line: &mut Line) -> Option<()> {
        let sq = match self.take_word() {
            b"n" => 1,
            b"z" => 2,
            _ => return None,
        };
        if self.take_word() != b"then" || self.take_word() != b"goto" {
            return None;
        }
        self.take_target(sq, line)
    }

    fn take_part(&mut self, line: &mut Line) -> Option<()> {
        match self.take_word() {
            b"rd" => line.add_transfer(1 << 9),
            b"wr" => line.add_transfer(1 << 8),
            b"goto" => self.take_target(3, line)?,
            b"if" => self.take_test(line)?,
            b"alu" => self.take_operation(None, line)?,
            name => self.take_operation(Some(register(name)?), line)?,
        }
        Some(())
    }

    fn take_parts(&mut self) -> Option<Line> {
        let mut line = Line::default();
        while self.peek_token() != b'\n' {
            self.take_part(&mut line)?;
            if self.peek_token() != b'\n' {
                self.take_sign(b';')?;
            }
        }
        Some(line)
    }

    /// The line numbered k, up to its end: its word, or its answer.
    fn take_line(&mut self, k: usize) -> Result<u32, u32> {
        if k >= STORE_WORDS {
            return Err(11);
        }
        if self.take_number() != Some(k as u32) {
            return Err(12);
        }
        self.take_sign(b':').ok_or(13u32)?;
        let line = self.take_parts().ok_or(13u32)?;
        if line.far {
            return Err(14);
        }
        if line.clashes() {
            return Err(15);
        }
        Ok(line.word)
    }
}

impl Line {
    fn add_transfer(&mut self, bit: u32) {
        self.twice |= self.transfer;
        self.transfer = true;
        self.word |= bit;
    }

    fn clashes(&self) -> bool {
        let test = self.sq == 1 || self.sq == 2;
        self.twice || (test && !self.operation) || (self.operation && !self.stores && !test)
    }
}

fn assemble_text(text: &[u8], store: &mut [u32]) -> u32 {
    let Ok(store) = <&mut Store>::try_from(store) else {
        return 1;
    };
    if text.len() > 8192 {
        return 10;
    }
    let mut words = [0; STORE_WORDS];
    let mut cursor = Cursor { text, at: 0 };
    let mut k = 0;
    while cursor.at < text.len() {
        match cursor.take_line(k) {
            Ok(word) => words[k] = word,
            Err(answer) => return answer,
        }
        cursor.at += 1;
        k += 1;
    }
    *store = words;
    0
}

// Lister.

const NAMES: [&[u8]; 8] = [b"cp", b"ac", b"pp", b"ri", b"rt", b"masc", b"rem", b"rdm"];

/// A room that fills from its start.
struct Room<'a> {
    bytes: &'a mut [u8],
    at: usize,
}

impl Room<'_> {
    fn put(&mut self, text: &[u8]) {
        self.bytes[self.at..self.at + text.len()].copy_from_slice(text);
        self.at += text.len();
    }

    fn put_byte(&mut self, byte: u8) {
        self.bytes[self.at] = byte;
        self.at += 1;
    }

    fn put_number(&mut self, number: u32) {
        if number >= 10 {
            self.put_byte(b'0' + (number / 10) as u8);
        }
        self.put_byte(b'0' + (number % 10) as u8);
    }

    fn put_operation(&mut self, word: u32) {
        let name = |low: u32| NAMES[(word >> low & 7) as usize];
        self.put(b" ");
        self.put(if word >> 13 & 1 == 1 { name(14) } else { b"alu" });
        self.put(b":=");
        let (before, behind): (&[u8], &[u8]) = match word >> 10 & 7 {
            0 => (b"", b""),
            1 => (b"", b"+1"),
            2 => (b"", b"-1"),
            3 => (b"", b"+"),
            4 => (b"", b"-"),
            5 => (b"", b"^"),
            6 => (b"<<", b""),
            _ => (b">>", b""),
        };
        self.put(before);
        self.put(name(20));
        self.put(behind);
        if matches!(word >> 10 & 7, 3..=5) {
            self.put(name(17));
        }
        self.put(b";");
    }

    fn put_line(&mut self, number: u32, word: u32) {
        self.put_number(number);
        self.put(b":");
        if operates(word) {
            self.put_operation(word);
        }
        match word >> 8 & 3 {
            0 => {}
            1 => self.put(b" wr;"),
            _ => self.put(b" rd;"),
        }
        let jump: &[u8] = match word >> 6 & 3 {
            0 => b"",
            1 => b" if n then goto ",
            2 => b" if z then goto ",
            _ => b" goto ",
        };
        if !jump.is_empty() {
            self.put(jump);
            self.put_number(word & 63);
            self.put(b";");
        }
        self.put(b"\n");
    }
}

/// Whether anything asks for the word's operation: a store or a test.
fn operates(word: u32) -> bool {
    word >> 13 & 1 == 1 || matches!(word >> 6 & 3, 1 | 2)
}

/// Whether the word's normal form is not 0: an operation, a transfer or a jump.
fn does_something(word: &u32) -> bool {
    operates(*word) || word >> 6 & 15 != 0
}

/// No line is longer than 44 bytes, so no listing passes a room of 2,816: answer 17 never comes.
fn list_store(store: &[u32], bytes: &mut [u8], told: &mut [usize; 2]) -> u32 {
    *told = [0, 0];
    let Ok(store) = <&Store>::try_from(store) else {
        return 1;
    };
    if bytes.len() < 2816 {
        return 16;
    }
    if let Some(bad) = first_bad(store) {
        told[1] = bad;
        return 4;
    }
    let lines = store.iter().rposition(does_something).map_or(0, |last| last + 1);
    let mut room = Room { bytes, at: 0 };
    for (number, &word) in (0..).zip(&store[..lines]) {
        room.put_line(number, word);
    }
    told[0] = room.at;
    0
}

// Images.

/// The addresses and values of an image's records.
fn records(image: &[u8]) -> impl Iterator<Item = (u16, u16)> {
    image.as_chunks().0.iter().map(|&[a, b, c, d]| (u16::from_be_bytes([a, b]), u16::from_be_bytes([c, d])))
}

fn examine(image: &[u8]) -> u32 {
    if image.len() % 4 != 0 {
        return 20;
    }
    let mut least = 0;
    for (address, value) in records(image) {
        if address >= PORTS {
            return 21;
        }
        if address < least {
            return 22;
        }
        if value == 0 {
            return 23;
        }
        least = address + 1;
    }
    0
}

fn read_image(image: &[u8], memory: &mut [u16]) -> u32 {
    let Ok(memory) = <&mut Memory>::try_from(memory) else {
        return 1;
    };
    let answer = examine(image);
    if answer == 0 {
        memory.fill(0);
        for (address, value) in records(image) {
            memory[address as usize] = value;
        }
    }
    answer
}

fn write_image(memory: &[u16], room: &mut [u8], length: &mut usize) -> u32 {
    *length = 0;
    if memory.len() != MEMORY_WORDS {
        return 1;
    }
    if room.len() < 16368 {
        return 24;
    }
    let mut rooms = room.as_chunks_mut().0.iter_mut();
    for (address, &value) in (0..PORTS).zip(memory) {
        if value == 0 {
            continue;
        }
        let Some(record) = rooms.next() else { break };
        let ([a, b], [c, d]) = (address.to_be_bytes(), value.to_be_bytes());
        *record = [a, b, c, d];
        *length += 4;
    }
    0
}

// The edge to C: facetgrove.h says what the pointers are.

use std::slice::{from_raw_parts, from_raw_parts_mut};

#[unsafe(no_mangle)]
pub unsafe extern "C" fn plain_rust_engine_run(
    store: *const u32,
    store_words: usize,
    memory: *mut u16,
    memory_words: usize,
    input: *const u16,
    input_words: usize,
    log: *mut u16,
    log_words: usize,
    registers: &mut [u16; 8],
    state: &mut [usize; 4],
    cycles: u32,
    told: &mut [usize; 2],
) -> u32 {
    let (store, memory, input, log) = unsafe {
        (
            from_raw_parts(store, store_words),
            from_raw_parts_mut(memory, memory_words),
            from_raw_parts(input, input_words),
            from_raw_parts_mut(log, log_words),
        )
    };
    run_engine(store, memory, input, log, EngineState { registers, state, told }, cycles)
}

#[unsafe(no_mangle)]
pub unsafe extern "C" fn plain_rust_interpreter_run(
    memory: *mut u16,
    memory_words: usize,
    input: *const u16,
    input_words: usize,
    log: *mut u16,
    log_words: usize,
    registers: &mut [u16; 3],
    state: &mut [usize; 2],
    instructions: u32,
    told: &mut [u64; 2],
) -> u32 {
    let (memory, input, log) = unsafe {
        (
            from_raw_parts_mut(memory, memory_words),
            from_raw_parts(input, input_words),
            from_raw_parts_mut(log, log_words),
        )
    };
    run_interpreter(memory, input, log, CpuState { registers, state, told }, instructions)
}

#[unsafe(no_mangle)]
pub unsafe extern "C" fn plain_rust_micro_assemble(
    text: *const u8,
    text_bytes: usize,
    store: *mut u32,
    store_words: usize,
) -> u32 {
    let (text, store) = unsafe { (from_raw_parts(text, text_bytes), from_raw_parts_mut(store, store_words)) };
    assemble_text(text, store)
}

#[unsafe(no_mangle)]
pub unsafe extern "C" fn plain_rust_micro_list(
    store: *const u32,
    store_words: usize,
    room: *mut u8,
    room_bytes: usize,
    told: &mut [usize; 2],
) -> u32 {
    let (store, room) = unsafe { (from_raw_parts(store, store_words), from_raw_parts_mut(room, room_bytes)) };
    list_store(store, room, told)
}

#[unsafe(no_mangle)]
pub unsafe extern "C" fn plain_rust_image_read(
    image: *const u8,
    image_bytes: usize,
    memory: *mut u16,
    memory_words: usize,
) -> u32 {
    let (image, memory) = unsafe { (from_raw_parts(image, image_bytes), from_raw_parts_mut(memory, memory_words)) };
    read_image(image, memory)
}

#[unsafe(no_mangle)]
pub unsafe extern "C" fn plain_rust_image_write(
    memory: *const u16,
    memory_words: usize,
    room: *mut u8,
    room_bytes: usize,
    length: &mut usize,
) -> u32 {
    let (memory, room) = unsafe { (from_raw_parts(memory, memory_words), from_raw_parts_mut(room, room_bytes)) };
    write_image(memory, room, length)
}
