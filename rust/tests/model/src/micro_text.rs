//! Micro text: the microassembler and the lister.

use crate::engine::REGISTER_NAMES;
use crate::microword::{is_good, normal, put_together, take_apart, Microword};
use crate::{Told, STORE_WORDS};

const LONGEST_TEXT: usize = 8192;
const LEAST_ROOM: usize = 2816;

/// Assembles micro text and gives the answer number.
pub fn assemble(text: &[u8], store: &mut [u32]) -> u32 {
    if store.len() != STORE_WORDS {
        return 1;
    }
    if text.len() > LONGEST_TEXT {
        return 10;
    }
    let mut assembled = [0; STORE_WORDS];
    for (number, line) in lines(text).enumerate() {
        match assemble_line(number, line) {
            Ok(word) => assembled[number] = word,
            Err(answer) => return answer,
        }
    }
    store.copy_from_slice(&assembled);
    0
}

/// The lines of a text, without the byte 10 that ends each.
pub fn lines(text: &[u8]) -> impl Iterator<Item = &[u8]> {
    text.split_inclusive(|&byte| byte == b'\n').map(|line| line.strip_suffix(b"\n").unwrap_or(line))
}

/// The word of the line with this number from 0, or its answer number.
pub fn assemble_line(number: usize, line: &[u8]) -> Result<u32, u32> {
    if number >= STORE_WORDS {
        return Err(11);
    }
    let after_number = strip_number(number, line).ok_or(12u32)?;
    let tokens = tokens(after_number).ok_or(13u32)?;
    let parts = parts(&tokens).ok_or(13u32)?;
    if parts.iter().any(|part| matches!(part, Part::Jump { target: 64.., .. })) {
        return Err(14);
    }
    if !go_together(&parts) {
        return Err(15);
    }
    Ok(put_together(fields(&parts)))
}

/// What follows the line number, if the line begins with that very number.
fn strip_number(number: usize, line: &[u8]) -> Option<&[u8]> {
    let (digits, rest) = leading(without_spaces(line), u8::is_ascii_digit);
    (digits == number.to_string().as_bytes()).then_some(rest)
}

/// Without the spaces at the start; only byte 32 is a space.
fn without_spaces(bytes: &[u8]) -> &[u8] {
    leading(bytes, |&byte| byte == b' ').1
}

/// The longest start whose bytes are all of one sort, and the rest.
fn leading(bytes: &[u8], sort: impl Fn(&u8) -> bool) -> (&[u8], &[u8]) {
    bytes.split_at(bytes.iter().position(|byte| !sort(byte)).unwrap_or(bytes.len()))
}

#[derive(Clone, Copy, PartialEq, Eq)]
enum Token<'a> {
    Letters(&'a [u8]),
    Digits(&'a [u8]),
    Becomes,
    ShiftLeft,
    ShiftRight,
    Sign(u8),
}
use Token::{Becomes, Digits, Letters, ShiftLeft, ShiftRight, Sign};

/// The tokens of a line, or none where a byte begins no token.
fn tokens(line: &[u8]) -> Option<Vec<Token<'_>>> {
    let mut tokens = Vec::with_capacity(24);
    let mut rest = without_spaces(line);
    while !rest.is_empty() {
        let (token, after) = match rest {
            [b'a'..=b'z', ..] => {
                let (letters, after) = leading(rest, u8::is_ascii_lowercase);
                (Letters(letters), after)
            }
            [b'0'..=b'9', ..] => {
                let (digits, after) = leading(rest, u8::is_ascii_digit);
                (Digits(digits), after)
            }
            [b':', b'=', after @ ..] => (Becomes, after),
            [b'<', b'<', after @ ..] => (ShiftLeft, after),
            [b'>', b'>', after @ ..] => (ShiftRight, after),
            [sign @ (b':' | b';' | b'+' | b'-' | b'^' | b'(' | b')'), after @ ..] => (Sign(*sign), after),
            _ => return None,
        };
        tokens.push(token);
        rest = without_spaces(after);
    }
    Some(tokens)
}

#[derive(Clone, Copy)]
enum Part {
    /// `into` is none for `alu`.
    Operation { into: Option<u32>, computation: Computation },
    Read,
    Write,
    Jump { test: Test, target: u32 },
}

#[derive(Clone, Copy, PartialEq, Eq)]
enum Test {
    None,
    Negative,
    Zero,
}

#[derive(Clone, Copy)]
struct Computation {
    f: u32,
    a: u32,
    b: u32,
}

/// The parts of a line from its colon on.
fn parts(tokens: &[Token]) -> Option<Vec<Part>> {
    let [Sign(b':'), written @ ..] = tokens else { return None };
    let without_last_semicolon = match written {
        [] => return Some(Vec::new()),
        [some @ .., Sign(b';')] => some,
        all => all,
    };
    without_last_semicolon.split(|&token| token == Sign(b';')).map(part).collect()
}

fn part(tokens: &[Token]) -> Option<Part> {
    Some(match tokens {
        [Letters(b"rd")] => Part::Read,
        [Letters(b"wr")] => Part::Write,
        [Letters(b"goto"), k] => Part::Jump { test: Test::None, target: target(k)? },
        [Letters(b"if"), Letters(b"n"), Letters(b"then"), Letters(b"goto"), k] => {
            Part::Jump { test: Test::Negative, target: target(k)? }
        }
        [Letters(b"if"), Letters(b"z"), Letters(b"then"), Letters(b"goto"), k] => {
            Part::Jump { test: Test::Zero, target: target(k)? }
        }
        [Letters(b"alu"), Becomes, right @ ..] => Part::Operation { into: None, computation: right_side(right)? },
        [r, Becomes, right @ ..] => Part::Operation { into: Some(register(r)?), computation: right_side(right)? },
        _ => return None,
    })
}

/// One or two digits with no leading zero.
fn target(token: &Token) -> Option<u32> {
    match token {
        Digits([digit]) => Some(u32::from(digit - b'0')),
        Digits([tens @ b'1'..=b'9', ones]) => Some(u32::from(tens - b'0') * 10 + u32::from(ones - b'0')),
        _ => None,
    }
}

fn right_side(tokens: &[Token]) -> Option<Computation> {
    match tokens {
        [Sign(b'('), enclosed @ .., Sign(b')')] => computation(enclosed),
        plain => computation(plain),
    }
}

fn computation(tokens: &[Token]) -> Option<Computation> {
    let (f, a, b) = match tokens {
        [a] => (0, a, None),
        [a, Sign(b'+'), Digits(b"1")] => (1, a, None),
        [a, Sign(b'-'), Digits(b"1")] => (2, a, None),
        [a, Sign(b'+'), b] => (3, a, Some(b)),
        [a, Sign(b'-'), b] => (4, a, Some(b)),
        [a, Sign(b'^'), b] => (5, a, Some(b)),
        [ShiftLeft, a] => (6, a, None),
        [ShiftRight, a] => (7, a, None),
        _ => return None,
    };
    Some(Computation { f, a: register(a)?, b: b.map_or(Some(0), register)? })
}

fn register(token: &Token) -> Option<u32> {
    match token {
        Letters(name) => REGISTER_NAMES.iter().position(|known| known.as_bytes() == *name).map(|number| number as u32),
        _ => None,
    }
}

/// Each kind of part once at most, not rd with wr, no test without an operation and no `alu` without a test.
fn go_together(parts: &[Part]) -> bool {
    let count = |kind: fn(&Part) -> bool| parts.iter().filter(|part| kind(part)).count();
    let operations = count(|part| matches!(part, Part::Operation { .. }));
    let reads = count(|part| matches!(part, Part::Read));
    let writes = count(|part| matches!(part, Part::Write));
    let jumps = count(|part| matches!(part, Part::Jump { .. }));
    let tests = count(|part| matches!(part, Part::Jump { test: Test::Negative | Test::Zero, .. }));
    let alus = count(|part| matches!(part, Part::Operation { into: None, .. }));
    operations <= 1
        && reads + writes <= 1
        && jumps <= 1
        && (tests == 0 || operations == 1)
        && (alus == 0 || tests == 1)
}

fn fields(parts: &[Part]) -> Microword {
    let mut fields = Microword::default();
    for part in parts {
        match *part {
            Part::Operation { into, computation: Computation { f, a, b } } => {
                (fields.f, fields.a, fields.b) = (f, a, b);
                fields.hs = into.is_some();
                fields.s = into.unwrap_or(0);
            }
            Part::Read => fields.rd = true,
            Part::Write => fields.wr = true,
            Part::Jump { test, target } => {
                fields.end = target;
                fields.sq = match test {
                    Test::Negative => 1,
                    Test::Zero => 2,
                    Test::None => 3,
                };
            }
        }
    }
    fields
}

/// Lists a control store at the start of the room.
pub fn list(store: &[u32], room: &mut [u8]) -> Told {
    if store.len() != STORE_WORDS {
        return Told::answer(1);
    }
    if room.len() < LEAST_ROOM {
        return Told::answer(16);
    }
    if let Some(line) = store.iter().position(|&word| !is_good(word)) {
        return Told::bad_word(line);
    }
    let listed = store.iter().rposition(|&word| normal(word) != 0).map_or(0, |last| last + 1);
    let text: String = store[..listed].iter().enumerate().map(|(number, &word)| listed_line(number, word)).collect();
    if text.len() > room.len() {
        return Told::answer(17);
    }
    room[..text.len()].copy_from_slice(text.as_bytes());
    Told { answer: 0, done: text.len() as u64, extra: 0 }
}

fn listed_line(number: usize, word: u32) -> String {
    let fields = take_apart(word);
    let a = REGISTER_NAMES[fields.a as usize];
    let b = REGISTER_NAMES[fields.b as usize];
    let right_side = match fields.f {
        0 => a.to_string(),
        1 => format!("{a}+1"),
        2 => format!("{a}-1"),
        3 => format!("{a}+{b}"),
        4 => format!("{a}-{b}"),
        5 => format!("{a}^{b}"),
        6 => format!("<<{a}"),
        _ => format!(">>{a}"),
    };
    let mut line = format!("{number}:");
    if fields.hs {
        line += &format!(" {}:={right_side};", REGISTER_NAMES[fields.s as usize]);
    } else if matches!(fields.sq, 1 | 2) {
        line += &format!(" alu:={right_side};");
    }
    if fields.rd {
        line += " rd;";
    }
    if fields.wr {
        line += " wr;";
    }
    match fields.sq {
        0 => {}
        1 => line += &format!(" if n then goto {};", fields.end),
        2 => line += &format!(" if z then goto {};", fields.end),
        _ => line += &format!(" goto {};", fields.end),
    }
    line + "\n"
}
