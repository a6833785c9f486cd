//! Makes micro text from the grammar, and damages it.

use crate::random::Random;
use facetgrove_model::REGISTER_NAMES;

const TEXT_BYTES: usize = 8192;

/// A text of few or many lines, half of the time damaged.
pub fn text(random: &mut Random) -> Vec<u8> {
    let most = random.pick(&[1, 2, 2, 5, 5, 20]);
    let count = match random.within(0..=79) {
        0 => 64,
        1 => 65,
        _ => random.within(0..=most),
    };
    let careless = random.once_in(3);
    let mut author = Author { random, careless, text: String::new() };
    for number in 0..count {
        author.line(number);
    }
    let mut text = author.text.into_bytes();
    if random.once_in(3) {
        text.pop();
    }
    if random.once_in(2) {
        for _ in 0..random.within(1..=3) {
            damage(random, &mut text);
        }
    }
    if random.once_in(200) {
        pad(random, &mut text);
    }
    text
}

/// Writes lines of the grammar; a careless author at times gets a number, the parts or a target wrong.
struct Author<'a> {
    random: &'a mut Random,
    careless: bool,
    text: String,
}

type Tokens = Vec<String>;

impl Author<'_> {
    fn slips(&mut self, once_in: usize) -> bool {
        self.careless && self.random.once_in(once_in)
    }

    fn line(&mut self, number: usize) {
        let written = match self.slips(20) {
            true => self.random.pick(&["", "x", "00", "01", "1", "64"]).to_string(),
            false => number.to_string(),
        };
        self.tokens(&[written, ":".to_string()]);
        let mut parts = if self.slips(4) { self.any_parts() } else { self.parts_that_go_together() };
        let count = parts.len();
        parts.rotate_left(self.random.within(0..=count));
        for (index, part) in parts.iter().enumerate() {
            self.tokens(part);
            if index + 1 < count || self.random.once_in(2) {
                self.text.push(';');
            }
        }
        self.spaces();
        self.text.push('\n');
    }

    /// Tokens with spaces around them, which may be missing except between two words.
    fn tokens(&mut self, tokens: &[String]) {
        for token in tokens {
            self.spaces();
            let after_a_letter = self.text.ends_with(|last: char| last.is_ascii_lowercase());
            if after_a_letter && token.starts_with(|first: char| first.is_ascii_lowercase()) {
                self.text.push(' ');
            }
            self.text += token;
        }
        self.spaces();
    }

    fn spaces(&mut self) {
        self.text += self.random.pick(&["", "", "", "", " ", " ", "  ", "   "]);
    }

    fn parts_that_go_together(&mut self) -> Vec<Tokens> {
        let into = match self.random.within(0..=3) {
            0 => None,
            1 => Some("alu"),
            _ => Some(register(self.random)),
        };
        let test = match into {
            None => false,
            Some("alu") => true,
            Some(_) => self.random.once_in(2),
        };
        let mut parts = Vec::new();
        parts.extend(into.map(|into| operation(self.random, into)));
        if self.random.once_in(2) {
            parts.push(vec![self.random.pick(&["rd", "wr"]).to_string()]);
        }
        if test || self.random.once_in(3) {
            parts.push(self.jump(test));
        }
        parts
    }

    /// Parts without regard to what goes together.
    fn any_parts(&mut self) -> Vec<Tokens> {
        let count = self.random.within(0..=5);
        (0..count).map(|_| self.any_part()).collect()
    }

    fn any_part(&mut self) -> Tokens {
        let test = self.random.once_in(2);
        let into = if self.random.once_in(3) { "alu" } else { register(self.random) };
        match self.random.within(0..=3) {
            0 => vec!["rd".to_string()],
            1 => vec!["wr".to_string()],
            2 => self.jump(test),
            _ => operation(self.random, into),
        }
    }

    fn jump(&mut self, test: bool) -> Tokens {
        let target = match self.slips(10) {
            true => {
                self.random.pick(&["63", "64", "80", "99", "100", "00", "07", "640", "4294967296", "n"]).to_string()
            }
            false => self.random.within(0..=63).to_string(),
        };
        let mut tokens = Vec::new();
        if test {
            tokens.extend(["if", self.random.pick(&["n", "z"]), "then"].map(str::to_string));
        }
        tokens.extend(["goto".to_string(), target]);
        tokens
    }
}

fn operation(random: &mut Random, into: &str) -> Tokens {
    let (a, b) = (register(random), register(random));
    let right: &[&str] = match random.within(0..=7) {
        0 => &[a],
        1 => &[a, "+", "1"],
        2 => &[a, "-", "1"],
        3 => &[a, "+", b],
        4 => &[a, "-", b],
        5 => &[a, "^", b],
        6 => &["<<", a],
        _ => &[">>", a],
    };
    let bracketed = random.once_in(3);
    let (open, close): (&[&str], &[&str]) = if bracketed { (&["("], &[")"]) } else { (&[], &[]) };
    [&[into, ":="], open, right, close].concat().iter().map(|token| token.to_string()).collect()
}

fn register(random: &mut Random) -> &'static str {
    random.pick(&REGISTER_NAMES)
}

fn damage(random: &mut Random, text: &mut Vec<u8>) {
    if text.is_empty() {
        return text.push(random.byte());
    }
    let at = random.within(0..=text.len() - 1);
    let end = random.within(at..=text.len().min(at + 12));
    match random.within(0..=7) {
        0 => text[at] = byte_of_note(random),
        1 => text.insert(at, byte_of_note(random)),
        2 => drop(text.drain(at..end)),
        3 => drop(text.splice(at..at, text[at..end].to_vec())),
        4 => text[at..end].rotate_left((end - at) / 2),
        5 => text.truncate(at),
        6 => text[at] ^= 1 << random.within(0..=7),
        _ => drop(text.splice(at..at, random.pick(&WORDS_OF_NOTE).bytes())),
    }
}

const WORDS_OF_NOTE: [&str; 16] = [
    "rd;",
    "wr;",
    ";",
    ";;",
    ":",
    ":=",
    "(",
    ")",
    "<<",
    "goto 5;",
    "if n then",
    "alu:=cp;",
    "\n",
    "\n\n",
    "1",
    "ac:=ac;",
];

fn byte_of_note(random: &mut Random) -> u8 {
    match random.within(0..=2) {
        0 => random.byte(),
        1 => random.pick(b" \t\r\n;:=<>()+-^019azAZ\0\xFF"),
        _ => random.pick(b"acdefghilmnoprstuwz"),
    }
}

/// Brings the text to just about the longest length with spaces or with anything.
fn pad(random: &mut Random, text: &mut Vec<u8>) {
    let at = random.within(0..=text.len());
    let length = random.pick(&[TEXT_BYTES - 1, TEXT_BYTES, TEXT_BYTES, TEXT_BYTES + 1, 20_000]);
    let filling = random.pick(b"   \na0");
    let missing = length.saturating_sub(text.len());
    drop(text.splice(at..at, std::iter::repeat_n(filling, missing)));
}
