//! The fields of a microword and its normal form.

/// A microword taken apart, in the order of its fields from the highest.
#[derive(Clone, Copy, Default)]
pub struct Microword {
    pub a: u32,
    pub b: u32,
    pub s: u32,
    pub hs: bool,
    pub f: u32,
    pub rd: bool,
    pub wr: bool,
    pub sq: u32,
    pub end: u32,
}

/// A word of 23 bits that does not ask for a read and a write at once.
pub fn is_good(word: u32) -> bool {
    let fields = take_apart(word);
    word < 8_388_608 && !(fields.rd && fields.wr)
}

pub fn take_apart(word: u32) -> Microword {
    // The widths follow document 01: A 3, B 3, S 3, HS 1, F 3, RD 1, WR 1, SQ 2, END 6.
    let mut rest = word;
    let mut lowest = |width: u32| {
        let field = rest % (1 << width);
        rest >>= width;
        field
    };
    let end = lowest(6);
    let sq = lowest(2);
    let wr = lowest(1) == 1;
    let rd = lowest(1) == 1;
    let f = lowest(3);
    let hs = lowest(1) == 1;
    let s = lowest(3);
    let b = lowest(3);
    let a = lowest(3);
    Microword { a, b, s, hs, f, rd, wr, sq, end }
}

pub fn put_together(fields: Microword) -> u32 {
    let Microword { a, b, s, hs, f, rd, wr, sq, end } = fields;
    let mut word = 0;
    for (width, field) in
        [(3, a), (3, b), (3, s), (1, hs.into()), (3, f), (1, rd.into()), (1, wr.into()), (2, sq), (6, end)]
    {
        word = (word << width) + field;
    }
    word
}

/// The word with 0 in every field that has no use.
pub fn normal(word: u32) -> u32 {
    let mut fields = take_apart(word);
    if !matches!(fields.f, 3..=5) {
        fields.b = 0;
    }
    if !fields.hs {
        fields.s = 0;
    }
    if fields.sq == 0 {
        fields.end = 0;
    }
    if !fields.hs && matches!(fields.sq, 0 | 3) {
        (fields.a, fields.b, fields.f) = (0, 0, 0);
    }
    put_together(fields)
}
