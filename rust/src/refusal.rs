//! The refusals of document 01, each with its number and what it means.

use std::fmt;

/// Why a function did not do all that was asked. What it leaves behind stands with each function.
#[derive(Clone, Copy, Debug, PartialEq, Eq, Hash)]
pub enum Refusal {
    /// 1: memory is not 4,096 words, or the control store not 64.
    WrongSize,
    /// 2: the input place is past the input's end, or the log count past the log's length.
    PlaceOrCount,
    /// 3: CP, PP or REM is above 4,095, or the control line above 63.
    RegisterOrLine,
    /// 4: a control word of 8,388,608 or more, or with RD and WR both 1.
    ControlWord {
        /// The first such line.
        line: usize,
    },
    /// 5: a cycle, or instruction, still asked for would write to 4094 with the log full.
    LogFull,
    /// 10: the micro text is over 8,192 bytes.
    TextLength,
    /// 11: the micro text has a 65th line.
    LineTooMany,
    /// 12: a line number is missing, has a leading zero, or is not the next from 0.
    LineNumber,
    /// 13: a line is outside the grammar.
    Grammar,
    /// 14: a jump's target is from 64 to 99.
    Target,
    /// 15: a kind of part is given twice, or there is rd with wr, a test with no operation, or alu with no test.
    Parts,
    /// 16: the room for the listing is under 2,816 bytes.
    ListingRoom,
    /// 17: the listing would pass the room's end.
    ListingEnd,
    /// 20: the image's length is not a multiple of 4.
    ImageLength,
    /// 21: a record's address is above 4,091.
    RecordAddress,
    /// 22: a record's address is not above the one before.
    RecordOrder,
    /// 23: a record's value is 0.
    RecordValue,
    /// 24: the room for the image is under 16,368 bytes.
    ImageRoom,
}

impl Refusal {
    /// The answer number of document 01.
    ///
    /// ```
    /// assert_eq!(facetgrove::Refusal::LogFull.number(), 5);
    /// ```
    pub fn number(self) -> u32 {
        match self {
            Refusal::WrongSize => 1,
            Refusal::PlaceOrCount => 2,
            Refusal::RegisterOrLine => 3,
            Refusal::ControlWord { .. } => 4,
            Refusal::LogFull => 5,
            Refusal::TextLength => 10,
            Refusal::LineTooMany => 11,
            Refusal::LineNumber => 12,
            Refusal::Grammar => 13,
            Refusal::Target => 14,
            Refusal::Parts => 15,
            Refusal::ListingRoom => 16,
            Refusal::ListingEnd => 17,
            Refusal::ImageLength => 20,
            Refusal::RecordAddress => 21,
            Refusal::RecordOrder => 22,
            Refusal::RecordValue => 23,
            Refusal::ImageRoom => 24,
        }
    }
}

impl fmt::Display for Refusal {
    fn fmt(&self, out: &mut fmt::Formatter) -> fmt::Result {
        let meaning = match self {
            Refusal::WrongSize => "memory is not 4,096 words, or the control store not 64",
            Refusal::PlaceOrCount => "the input place is past the input's end, or the log count past the log's length",
            Refusal::RegisterOrLine => "CP, PP or REM is above 4,095, or the control line above 63",
            Refusal::ControlWord { line } => {
                return write!(out, "answer 4: line {line} holds no possible control word")
            }
            Refusal::LogFull => "the log is full, and the next step would write to it",
            Refusal::TextLength => "the micro text is over 8,192 bytes",
            Refusal::LineTooMany => "the micro text has a 65th line",
            Refusal::LineNumber => "a line number is missing, has a leading zero, or is not the next",
            Refusal::Grammar => "a line is outside the grammar",
            Refusal::Target => "a jump's target is above 63",
            Refusal::Parts => "parts of a line do not go together",
            Refusal::ListingRoom => "the room for the listing is under 2,816 bytes",
            Refusal::ListingEnd => "the listing would pass the room's end",
            Refusal::ImageLength => "the image's length is not a multiple of 4",
            Refusal::RecordAddress => "a record's address is above 4,091",
            Refusal::RecordOrder => "a record's address is not above the one before",
            Refusal::RecordValue => "a record's value is 0",
            Refusal::ImageRoom => "the room for the image is under 16,368 bytes",
        };
        write!(out, "answer {}: {meaning}", self.number())
    }
}

impl std::error::Error for Refusal {}

/// What an answer number of the library says; `line` is the line told with answer 4.
pub(crate) fn outcome(answer: u32, line: usize) -> Result<(), Refusal> {
    Err(match answer {
        0 => return Ok(()),
        1 => Refusal::WrongSize,
        2 => Refusal::PlaceOrCount,
        3 => Refusal::RegisterOrLine,
        4 => Refusal::ControlWord { line },
        5 => Refusal::LogFull,
        10 => Refusal::TextLength,
        11 => Refusal::LineTooMany,
        12 => Refusal::LineNumber,
        13 => Refusal::Grammar,
        14 => Refusal::Target,
        15 => Refusal::Parts,
        16 => Refusal::ListingRoom,
        17 => Refusal::ListingEnd,
        20 => Refusal::ImageLength,
        21 => Refusal::RecordAddress,
        22 => Refusal::RecordOrder,
        23 => Refusal::RecordValue,
        24 => Refusal::ImageRoom,
        other => panic!("the library answered {other}, which document 01 does not give it"),
    })
}

#[cfg(test)]
mod tests {
    use super::outcome;

    #[test]
    fn every_answer_has_its_refusal() {
        assert_eq!(outcome(0, 0), Ok(()));
        for answer in (1..=5).chain(10..=17).chain(20..=24) {
            let refusal = outcome(answer, 0).expect_err("only 0 is no refusal");
            assert_eq!(refusal.number(), answer);
            assert!(refusal.to_string().starts_with(&format!("answer {answer}: ")));
        }
    }
}
