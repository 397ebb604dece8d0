//! JSON: a value as a tree, with numbers as text and as `i64`.

use crate::digest::{Depth, digest, digest_of_integer, join};
use nom::branch::alt;
use nom::bytes::complete::{tag, take, take_while, take_while_m_n, take_while1};
use nom::character::complete::{digit0, digit1, one_of, satisfy};
use nom::combinator::{all_consuming, map, map_opt, map_res, opt, recognize, value as gives, verify};
use nom::multi::{fold_many0, separated_list0};
use nom::sequence::{delimited, pair, preceded, separated_pair, terminated, tuple};
use nom::{IResult, Parser};

type Answer<'i, O> = IResult<&'i [u8], O, ()>;

#[derive(Clone)]
enum Value {
    Null,
    Bool(bool),
    Number { text: Vec<u8>, integer: Option<i64> },
    String(String),
    Array(Vec<Value>),
    Object(Vec<(String, Value)>),
}

fn blanks(input: &[u8]) -> Answer<'_, &[u8]> {
    take_while(|byte| matches!(byte, b' ' | b'\t' | b'\n' | b'\r'))(input)
}

// A byte that stands after blanks.
fn mark<'i>(byte: &'static str) -> impl FnMut(&'i [u8]) -> Answer<'i, &'i [u8]> {
    preceded(blanks, tag(byte))
}

fn text(input: &[u8]) -> Answer<'_, &str> {
    map_res(take_while1(|byte| byte != b'"' && byte != b'\\' && byte >= 0x20), std::str::from_utf8)(input)
}

fn code_unit(input: &[u8]) -> Answer<'_, u32> {
    let digits = take_while_m_n(4, 4, |byte: u8| byte.is_ascii_hexdigit());
    let digits = map_res(digits, std::str::from_utf8);
    map_res(digits, |digits| u32::from_str_radix(digits, 16))(input)
}

fn unicode(input: &[u8]) -> Answer<'_, char> {
    let high = verify(code_unit, |unit| (0xD800..0xDC00).contains(unit));
    let low = verify(code_unit, |unit| (0xDC00..0xE000).contains(unit));
    let surrogates = map(separated_pair(high, tag("\\u"), low), |(high, low)| 0x10000 + ((high - 0xD800) << 10) + (low - 0xDC00));
    preceded(tag("u"), map_opt(alt((surrogates, code_unit)), char::from_u32))(input)
}

fn escape(input: &[u8]) -> Answer<'_, char> {
    let letter = map_opt(take(1usize), |letter: &[u8]| match letter[0] {
        letter @ (b'"' | b'\\' | b'/') => Some(letter as char),
        b'b' => Some('\u{8}'),
        b'f' => Some('\u{c}'),
        b'n' => Some('\n'),
        b'r' => Some('\r'),
        b't' => Some('\t'),
        _ => None,
    });
    preceded(tag("\\"), alt((letter, unicode)))(input)
}

#[derive(Clone)]
enum Part<'i> {
    Text(&'i str),
    Char(char),
}

fn string(input: &[u8]) -> Answer<'_, String> {
    let part = alt((map(text, Part::Text), map(escape, Part::Char)));
    let parts = fold_many0(part, String::new, |mut string, part| {
        match part {
            Part::Text(text) => string.push_str(text),
            Part::Char(char) => string.push(char),
        }
        string
    });
    delimited(tag("\""), parts, tag("\""))(input)
}

fn number(input: &[u8]) -> Answer<'_, Value> {
    let whole = alt((tag("0"), recognize(pair(satisfy(|first| ('1'..='9').contains(&first)), digit0))));
    let fraction = opt(preceded(tag("."), digit1));
    let exponent = opt(tuple((one_of("eE"), opt(one_of("+-")), digit1)));
    map(recognize(tuple((opt(tag("-")), whole, fraction, exponent))), |text: &[u8]| {
        let integer = std::str::from_utf8(text).ok().and_then(|text| text.parse().ok());
        Value::Number { text: text.to_vec(), integer }
    })(input)
}

fn array(input: &[u8]) -> Answer<'_, Value> {
    let elements = separated_list0(mark(","), value);
    map(delimited(tag("["), elements, mark("]")), Value::Array)(input)
}

fn object(input: &[u8]) -> Answer<'_, Value> {
    let member = separated_pair(preceded(blanks, string), mark(":"), value);
    let members = separated_list0(mark(","), member);
    map(delimited(tag("{"), members, mark("}")), Value::Object)(input)
}

fn value(input: &[u8]) -> Answer<'_, Value> {
    let (input, _) = blanks(input)?;
    match input.first() {
        Some(b'"') => map(string, Value::String)(input),
        Some(b'{') => object(input),
        Some(b'[') => array(input),
        Some(b'n') => gives(Value::Null, tag("null")).parse(input),
        Some(b't') => gives(Value::Bool(true), tag("true")).parse(input),
        Some(b'f') => gives(Value::Bool(false), tag("false")).parse(input),
        _ => number(input),
    }
}

fn digest_of(value: &Value, depth: Depth) -> u64 {
    match value {
        Value::Null => 1,
        Value::Bool(truth) => join(2, u64::from(*truth)),
        Value::Number { text, integer } => join(digest(text, depth), digest_of_integer(integer.unwrap_or(7))),
        Value::String(text) => join(3, digest(text.as_bytes(), depth)),
        Value::Array(elements) => elements.iter().fold(elements.len() as u64, |sum, element| join(sum, digest_of(element, depth))),
        Value::Object(members) => {
            members.iter().fold(members.len() as u64, |sum, (name, member)| join(join(sum, digest(name.as_bytes(), depth)), digest_of(member, depth)))
        }
    }
}

/// Reads one value as a tree that owns its strings.
pub fn read_owned(input: &[u8], depth: Depth) -> u64 {
    let whole = all_consuming(terminated(value, blanks))(input);
    whole.map_or(u64::MAX, |(_, value)| digest_of(&value, depth))
}

// Joins the numbers of a value's events.
fn join_events(sum: u64, value: &Value, depth: Depth) -> u64 {
    match value {
        Value::Null => join(sum, 6),
        Value::Bool(truth) => join(sum, join(7, u64::from(*truth))),
        Value::Number { .. } => join(sum, digest_of(value, depth)),
        Value::String(text) => join(sum, join(8, digest(text.as_bytes(), depth))),
        Value::Array(elements) => join(elements.iter().fold(join(sum, 1), |sum, element| join_events(sum, element, depth)), 2),
        Value::Object(members) => {
            let member = |sum, (name, member): &(String, Value)| join_events(join(sum, join(5, digest(name.as_bytes(), depth))), member, depth);
            join(members.iter().fold(join(sum, 3), member), 4)
        }
    }
}

/// Reads one value as its events, if all of the input is one.
pub fn read_events(input: &[u8], depth: Depth) -> Option<u64> {
    let (_, value) = all_consuming(terminated(value, blanks))(input).ok()?;
    Some(join(join_events(0, &value, depth), input.len() as u64))
}
