//! The same parsers of nom, asked in the same way: each again and again, up to its first failure.

use nom::branch;
use nom::bytes::complete as bytes;
use nom::character::complete as character;
use nom::multi::{fold_many0, many0, many0_count, separated_list0};
use nom::number::complete as number;
use nom::sequence::{terminated, tuple};
use nom::{IResult, Parser};

// What a parser gave, as a number.
trait Value {
    fn value(&self) -> u64;
}

impl Value for u8 {
    fn value(&self) -> u64 {
        u64::from(*self)
    }
}

impl Value for char {
    fn value(&self) -> u64 {
        u64::from(u32::from(*self))
    }
}

impl Value for usize {
    fn value(&self) -> u64 {
        *self as u64
    }
}

impl Value for u64 {
    fn value(&self) -> u64 {
        *self
    }
}

impl Value for f64 {
    fn value(&self) -> u64 {
        if self.is_nan() { 1 } else { self.to_bits() }
    }
}

impl Value for &[u8] {
    fn value(&self) -> u64 {
        self.first().map_or(0, |first| self.len() as u64 ^ u64::from(*first))
    }
}

impl Value for Vec<&[u8]> {
    fn value(&self) -> u64 {
        self.last().map_or(0, |last| self.len() as u64 ^ last.value())
    }
}

// The fields of a record of nine bytes.
type Record = (u16, u32, u8, u16);

impl Value for Record {
    fn value(&self) -> u64 {
        let (first, second, third, fourth) = *self;
        let mix = |sum: u64, number: u64| number.wrapping_sub(sum);
        mix(mix(first.into(), second.into()), mix(third.into(), fourth.into()))
    }
}

fn sum_values<'i, O: Value>(mut input: &'i [u8], mut parser: impl Parser<&'i [u8], O, ()>) -> u64 {
    let mut sum = 0u64;
    for _ in 0..input.len() {
        match parser.parse(input) {
            Ok((rest, value)) => {
                sum = value.value().wrapping_sub(sum);
                input = rest;
            }
            Err(_) => return sum,
        }
    }
    sum
}

fn read_once<'i, O: Value>(input: &'i [u8], mut parser: impl Parser<&'i [u8], O, ()>) -> u64 {
    parser.parse(input).map_or(u64::MAX, |(_, value)| value.value())
}

fn is_letter(byte: u8) -> bool {
    byte.is_ascii_lowercase()
}

fn is_newline(byte: u8) -> bool {
    byte == b'\n'
}

fn is_word_or_space(byte: char) -> bool {
    byte.is_ascii_lowercase() || byte == ' ' || byte == '\n'
}

// The parsers of tokens in one of nom's two forms.
macro_rules! tokens {
    ($form:ident) => {
        use super::{is_letter, is_newline, is_word_or_space, sum_values, terminated};
        use nom::bytes::$form as bytes;
        use nom::character::$form as character;
        use nom::number::$form as number;

        pub fn any(input: &[u8]) -> u64 {
            sum_values(input, number::u8)
        }

        pub fn one_of(input: &[u8]) -> u64 {
            sum_values(input, character::satisfy(is_word_or_space))
        }

        pub fn literal(input: &[u8]) -> u64 {
            sum_values(input, bytes::tag("word"))
        }

        pub fn take(input: &[u8]) -> u64 {
            sum_values(input, bytes::take(16usize))
        }

        pub fn take_while(input: &[u8]) -> u64 {
            sum_values(input, terminated(bytes::take_while1(is_letter), number::u8))
        }

        pub fn take_till(input: &[u8]) -> u64 {
            sum_values(input, terminated(bytes::take_till(is_newline), number::u8))
        }
    };
}

pub mod whole {
    tokens!(complete);
}

pub mod partial {
    tokens!(streaming);
}

/// What is made of parsers, and searches, over a whole input.
pub mod parts {
    use super::*;

    pub fn take_until(input: &[u8]) -> u64 {
        sum_values(input, terminated(bytes::take_until("\n"), number::u8))
    }

    pub fn alt(input: &[u8]) -> u64 {
        sum_values(input, branch::alt((bytes::tag("alpha"), bytes::tag("beta"), bytes::tag("gamma"), bytes::tag("delta"))))
    }

    pub fn repeat_count(input: &[u8]) -> u64 {
        read_once(input, many0_count(terminated(word, space)))
    }

    pub fn repeat_vec(input: &[u8]) -> u64 {
        read_once(input, many0(terminated(word, space)))
    }

    pub fn verify_fold(input: &[u8]) -> u64 {
        let word = |input| terminated(word, space)(input);
        read_once(input, fold_many0(word, || 0u64, |sum: u64, word: &[u8]| word.value().wrapping_sub(sum)))
    }

    pub fn float(input: &[u8]) -> u64 {
        sum_values(input, terminated(number::double, number::u8))
    }

    pub fn records(input: &[u8]) -> u64 {
        sum_values(input, tuple((number::be_u16, number::be_u32, number::u8, number::be_u16)))
    }

    /// nom has no writer: by Rust's own vector.
    pub fn records_written(input: &[u8]) -> u64 {
        let mut bytes = Vec::new();
        for turn in 0..input.len() / 9 {
            bytes.extend_from_slice(&(turn as u16).to_be_bytes());
            bytes.extend_from_slice(&(turn as u32).to_be_bytes());
            bytes.push(turn as u8);
            bytes.extend_from_slice(&(turn as u16).to_be_bytes());
        }
        bytes.as_slice().value()
    }

    pub fn separated(input: &[u8]) -> u64 {
        read_once(input, separated_list0(space, word))
    }

    fn word(input: &[u8]) -> IResult<&[u8], &[u8], ()> {
        bytes::take_while1(is_letter)(input)
    }

    fn space(input: &[u8]) -> IResult<&[u8], char, ()> {
        character::satisfy(|byte| byte == ' ' || byte == '\n')(input)
    }
}
