//! What a question answers.

use std::error::Error;
use std::fmt;

/// The numbers of the refusals, as `include/lezvorgan.h` names them.
pub mod number {
    pub const TOO_SHORT: u32 = 1;
    pub const COUNTS: u32 = 2;
    pub const LENGTHS: u32 = 3;
    pub const LIST_TOO_SHORT: u32 = 4;
    pub const BLOCK: u32 = 5;
    pub const WIRE: u32 = 6;
    pub const LOOP: u32 = 7;
    pub const LAG_OUTSIDE: u32 = 8;
    pub const WIRE_OUTSIDE: u32 = 9;
    pub const NONE_PERMITTED: u32 = 10;
    pub const NONE_MEETS: u32 = 11;
    pub const NO_VALID_LOOP: u32 = 12;
}

/// The answer of a question on lent lists.
#[derive(Clone, Copy, Debug, PartialEq, Eq)]
pub enum Answer {
    /// Done; the period in the two questions that give one, else 0.
    Done(u32),
    /// Refused; the word count is 0 except with 10 and 11.
    Refused { number: u32, place: u32, count: u32 },
}

impl Answer {
    pub(crate) fn new(number: u32, place: u32, value: u32) -> Answer {
        match number {
            0 => Answer::Done(value),
            _ => Answer::Refused { number, place, count: value },
        }
    }

    /// The value of a done question; a refusal with the counted words of the loop list.
    pub(crate) fn done(self, words: &[u16]) -> Result<u32, Refusal> {
        match self {
            Answer::Done(value) => Ok(value),
            Answer::Refused { number, place, count } => Err(Refusal { number, place, proof: words[..count as usize].to_vec() }),
        }
    }
}

/// Why a question was refused, with the loop that proves 10 and 11.
#[derive(Clone, Debug, PartialEq, Eq)]
pub struct Refusal {
    pub number: u32,
    pub place: u32,
    /// The words of a loop that `check_loop` accepts; empty except with 10 and 11.
    pub proof: Vec<u16>,
}

fn meaning(number: u32) -> &'static str {
    match number {
        number::TOO_SHORT => "the sheet has fewer than 16 bytes",
        number::COUNTS => "the sheet has no blocks, or too many blocks or wires",
        number::LENGTHS => "an offset, the total or the length is wrong",
        number::LIST_TOO_SHORT => "a lent list is too short",
        number::BLOCK => "a block entry breaks its rule",
        number::WIRE => "a wire entry breaks its rule",
        number::LOOP => "there is a register-free loop",
        number::LAG_OUTSIDE => "a lag is outside its range",
        number::WIRE_OUTSIDE => "a wire would leave 0 to 2,000 registers",
        number::NONE_PERMITTED => "no permitted lags exist",
        number::NONE_MEETS => "no permitted lags meet the period",
        number::NO_VALID_LOOP => "the words are no valid loop",
        _ => "unknown",
    }
}

impl fmt::Display for Refusal {
    fn fmt(&self, f: &mut fmt::Formatter) -> fmt::Result {
        write!(f, "refused {} {}: {}", self.number, self.place, meaning(self.number))
    }
}

impl Error for Refusal {}

#[cfg(test)]
mod tests {
    use super::*;

    #[test]
    fn numbers_become_answers() {
        assert_eq!(Answer::new(0, 0, 7), Answer::Done(7));
        assert_eq!(Answer::new(5, 3, 0), Answer::Refused { number: 5, place: 3, count: 0 });
    }

    #[test]
    fn a_refusal_carries_the_counted_words() {
        let refused = Answer::new(11, 0, 2).done(&[1, 2, 3]).expect_err("refused");
        assert_eq!(refused, Refusal { number: 11, place: 0, proof: vec![1, 2] });
        assert_eq!(refused.to_string(), "refused 11 0: no permitted lags meet the period");
        assert_eq!(Answer::Done(7).done(&[]), Ok(7));
    }
}
