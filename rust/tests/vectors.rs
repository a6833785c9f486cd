//! The cases in `tests/vectors`, each held against the library and against the model.

mod library;

use facetgrove_model::{Cpu, Functions, Machine, Model, Plant, Told, FIGURE_5_10, MEMORY_WORDS, STORE_WORDS};
use library::{Raw, Safe};

/// A word and a byte that stand for what was there before a call.
const FOUND_WORD: u16 = 0xA5A5;
const FOUND_BYTE: u8 = 0xA5;

#[test]
fn micro_text() {
    check("micro-text.txt", include_str!("vectors/micro-text.txt"), 269, |functions, fields| {
        let text = fields.bytes("text");
        let answer = fields.number("answer");
        let found = [u32::from(FOUND_WORD); STORE_WORDS];
        let after = if answer == 0 { fields.words("words") } else { found.to_vec() };
        let mut store = found;
        let told = functions.micro_assemble(&text, &mut store);
        told == Told::answer(answer) && store[..] == after[..]
    });
}

#[test]
fn listings() {
    check("listings.txt", include_str!("vectors/listings.txt"), 250, |functions, fields| {
        let store = fields.words("store");
        let mut room = vec![FOUND_BYTE; fields.number("room")];
        let mut after = room.clone();
        let mut expected = Told::answer(fields.number("answer"));
        if expected.answer == 4 {
            expected.extra = fields.number("line");
        }
        if expected.answer == 0 {
            let text = fields.bytes("text");
            expected.done = text.len() as u64;
            after[..text.len()].copy_from_slice(&text);
        }
        functions.micro_list(&store, &mut room) == expected && room == after
    });
}

#[test]
fn images() {
    check("images.txt", include_str!("vectors/images.txt"), 250, |functions, fields| {
        let image = fields.bytes("image");
        let answer = fields.number("answer");
        let after = if answer == 0 { fields.memory() } else { vec![FOUND_WORD; MEMORY_WORDS] };
        let mut memory = [FOUND_WORD; MEMORY_WORDS];
        let read = functions.image_read(&image, &mut memory) == Told::answer(answer) && memory[..] == after[..];
        read && (answer != 0 || writes_back(functions, &after, &image))
    });
}

/// Writing what was read gives back the same bytes.
fn writes_back(functions: &dyn Functions, memory: &[u16], image: &[u8]) -> bool {
    let mut room = [FOUND_BYTE; facetgrove::IMAGE_ROOM];
    let told = functions.image_write(memory, &mut room);
    let (written, past) = room.split_at(image.len());
    told == Told { answer: 0, done: image.len() as u64, extra: 0 }
        && written == image
        && past.iter().all(|&byte| byte == FOUND_BYTE)
}

#[test]
fn engine() {
    check("engine.txt", include_str!("vectors/engine.txt"), 250, |functions, fields| {
        let before = fields.machine();
        let (cycles, after) = (fields.number("cycles"), fields.after());
        let after_machine = Machine { store: before.store.clone(), ..after.machine() };
        let mut expected = after.told("done");
        if expected.answer == 4 {
            expected.extra = after.number("at");
        }
        let mut machine = before.clone();
        let ran = functions.engine_run(&mut machine, cycles) == expected && machine == after_machine;
        ran && (cycles != 1 || presses(functions, before, expected, &after_machine))
    });
}

/// A press equals a run of 1.
fn presses(functions: &dyn Functions, mut machine: Machine, expected: Told, after: &Machine) -> bool {
    functions.press(&mut machine) == expected && machine == *after
}

#[test]
fn interpreter() {
    check("interpreter.txt", include_str!("vectors/interpreter.txt"), 250, |functions, fields| {
        let mut cpu = fields.cpu();
        let after = fields.after();
        let expected = Told { extra: after.number("cycles"), ..after.told("done") };
        functions.interpreter_run(&mut cpu, fields.number("instructions")) == expected && cpu == after.cpu()
    });
}

#[test]
fn printed_store() {
    let mut store = [0; STORE_WORDS];
    assert_eq!(facetgrove_model::assemble(FIGURE_5_10.as_bytes(), &mut store), 0);
    assert_eq!(facetgrove::printed_store(), store);
}

/// Holds every line of a file against the library, twice, and the model; a failure names file and line.
fn check(file: &str, lines: &str, expected_lines: usize, agrees: impl Fn(&dyn Functions, &Fields) -> bool) {
    let callers: [(&str, &dyn Functions); 3] = [("safe functions", &Safe), ("C interface", &Raw), ("model", &Model)];
    let mut checked = 0;
    for (number, line) in lines.lines().enumerate() {
        for (name, functions) in callers {
            assert!(agrees(functions, &Fields(line)), "{file} line {}: the {name} differ", number + 1);
        }
        checked += 1;
    }
    assert_eq!(checked, expected_lines, "{file}: lines checked");
}

/// A line of a vector file: names and values in turn, divided by spaces.
struct Fields<'a>(&'a str);

impl<'a> Fields<'a> {
    /// The value of the first field with this name.
    fn value(&self, name: &str) -> &'a str {
        let mut words = self.0.split(' ');
        words.find(|&word| word == name).unwrap_or_else(|| panic!("no field {name}"));
        words.next().unwrap_or_else(|| panic!("no value for {name}"))
    }

    fn number<T: std::str::FromStr>(&self, name: &str) -> T {
        self.value(name).parse().unwrap_or_else(|_| panic!("{name} is no number"))
    }

    fn words<T: std::str::FromStr>(&self, name: &str) -> Vec<T> {
        let list = self.value(name);
        let items = list.split(',').filter(|_| list != "-");
        items.map(|item| item.parse().unwrap_or_else(|_| panic!("{name} holds {item}"))).collect()
    }

    fn bytes(&self, name: &str) -> Vec<u8> {
        let hex = self.value(name);
        let pairs = (0..hex.len() / 2).map(|index| &hex[2 * index..2 * index + 2]);
        pairs.map(|pair| u8::from_str_radix(pair, 16).expect("hexadecimal digits")).collect()
    }

    fn memory(&self) -> Vec<u16> {
        let mut memory = vec![0; MEMORY_WORDS];
        for item in self.value("memory").split(',').filter(|&item| item != "-") {
            let (address, value) = item.split_once('=').expect("ADDRESS=VALUE");
            memory[address.parse::<usize>().expect("an address")] = value.parse().expect("a value");
        }
        memory
    }

    fn plant(&self) -> Plant {
        Plant {
            memory: self.memory(),
            input: self.words("input"),
            place: self.number("place"),
            log: self.words("log"),
            count: self.number("count"),
        }
    }

    fn machine(&self) -> Machine {
        Machine {
            store: self.store(),
            plant: self.plant(),
            registers: self.words("registers").try_into().expect("eight registers"),
            line: self.number("line"),
            half: self.number("half"),
        }
    }

    /// The store before a run; after it none is written down.
    fn store(&self) -> Vec<u32> {
        match self.0.starts_with("store ").then(|| self.value("store")) {
            None => Vec::new(),
            Some("printed") => facetgrove::printed_store().to_vec(),
            Some(_) => self.words("store"),
        }
    }

    fn cpu(&self) -> Cpu {
        Cpu { plant: self.plant(), cp: self.number("cp"), pp: self.number("pp"), ac: self.number("ac") }
    }

    fn told(&self, done: &str) -> Told {
        Told { answer: self.number("answer"), done: self.number(done), extra: 0 }
    }

    /// What stands after the arrow.
    fn after(&self) -> Fields<'a> {
        Fields(self.0.split_once(" -> ").expect("an arrow").1)
    }
}
