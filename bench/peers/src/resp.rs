//! Replies of the Redis protocol, version 2.

use crate::digest::{Depth, digest, digest_of_integer, join};
use nom::bytes::complete::{tag, take, take_till};
use nom::character::complete::i64 as integer;
use nom::combinator::{consumed, map, verify};
use nom::multi::count;
use nom::number::complete::u8 as byte;
use nom::sequence::terminated;
use nom::{Err, IResult};

type Answer<'i, O> = IResult<&'i [u8], O, ()>;

// `B` is how bytes are held: lent by the input, or copied.
enum Reply<B> {
    Simple(B),
    Error(B),
    Integer(i64),
    Bulk(B),
    NullBulk,
    Array(Vec<Reply<B>>),
    NullArray,
}

fn text(input: &[u8]) -> Answer<'_, &[u8]> {
    terminated(take_till(|byte| byte == b'\r' || byte == b'\n'), tag("\r\n"))(input)
}

// Whether digits stand as the protocol writes them: with no plus, no 0 before other digits, and no minus before 0.
fn is_plain(digits: &[u8]) -> bool {
    let unsigned = digits.strip_prefix(b"-").unwrap_or(digits);
    !unsigned.starts_with(b"+") && (unsigned.len() == 1 || !unsigned.starts_with(b"0")) && digits != b"-0"
}

fn number<const STRICT: bool>(input: &[u8]) -> Answer<'_, i64> {
    let digits = verify(consumed(integer), |(digits, _): &(&[u8], i64)| !STRICT || is_plain(digits));
    map(terminated(digits, tag("\r\n")), |(_, number)| number)(input)
}

fn length<const STRICT: bool>(input: &[u8]) -> Answer<'_, i64> {
    verify(number::<STRICT>, |length| !STRICT || *length >= -1)(input)
}

// `STRICT` is whether a number stands as the protocol writes it, and no length but -1 is below 0, as for our readers.
fn reply<'i, B: From<&'i [u8]>, const STRICT: bool>(input: &'i [u8]) -> Answer<'i, Reply<B>> {
    let (input, kind) = byte(input)?;
    match kind {
        b'+' => map(text, |text| Reply::Simple(text.into()))(input),
        b'-' => map(text, |text| Reply::Error(text.into()))(input),
        b':' => map(number::<STRICT>, Reply::Integer)(input),
        b'$' => {
            let (input, length) = length::<STRICT>(input)?;
            let Ok(length) = usize::try_from(length) else {
                return Ok((input, Reply::NullBulk));
            };
            map(terminated(take(length), tag("\r\n")), |bytes: &[u8]| Reply::Bulk(bytes.into()))(input)
        }
        b'*' => {
            let (input, length) = length::<STRICT>(input)?;
            let Ok(length) = usize::try_from(length) else {
                return Ok((input, Reply::NullArray));
            };
            map(count(reply::<B, STRICT>, length), Reply::Array)(input)
        }
        _ => Err(Err::Error(())),
    }
}

fn digest_of<B: AsRef<[u8]>>(reply: &Reply<B>, depth: Depth) -> u64 {
    match reply {
        Reply::Simple(text) => join(1, digest(text.as_ref(), depth)),
        Reply::Error(text) => join(2, digest(text.as_ref(), depth)),
        Reply::Integer(number) => join(3, digest_of_integer(*number)),
        Reply::Bulk(bytes) => join(4, digest(bytes.as_ref(), depth)),
        Reply::NullBulk => 5,
        Reply::NullArray => 6,
        Reply::Array(replies) => replies.iter().fold(replies.len() as u64, |sum, one| join(sum, digest_of(one, depth))),
    }
}

fn read<'i, B: AsRef<[u8]> + From<&'i [u8]>, const STRICT: bool>(input: &'i [u8], depth: Depth) -> u64 {
    let mut rest = input;
    let mut sum = 0;
    while let Ok((after, one)) = reply::<B, STRICT>(rest) {
        sum = join(sum, digest_of(&one, depth));
        rest = after;
    }
    join(sum, rest.len() as u64)
}

/// Reads replies that own their bytes.
pub fn read_owned(input: &[u8], depth: Depth) -> u64 {
    read::<Vec<u8>, false>(input, depth)
}

/// Reads replies that borrow their bytes from the input.
pub fn read_borrowed(input: &[u8], depth: Depth) -> u64 {
    read::<&[u8], false>(input, depth)
}

// Joins the numbers of a reply's events.
fn join_events<B: AsRef<[u8]>>(sum: u64, reply: &Reply<B>, depth: Depth) -> u64 {
    let Reply::Array(replies) = reply else {
        return join(sum, digest_of(reply, depth));
    };
    let sum = join(sum, join(7, replies.len() as u64));
    join(replies.iter().fold(sum, |sum, one| join_events(sum, one, depth)), 8)
}

/// Reads replies that borrow their bytes from the input, and goes over them as events.
pub fn read_events(input: &[u8], depth: Depth) -> u64 {
    let mut rest = input;
    let mut sum = 0;
    while let Ok((after, one)) = reply::<&[u8], false>(rest) {
        sum = join_events(sum, &one, depth);
        rest = after;
    }
    join(sum, rest.len() as u64)
}

/// Reads replies whose numbers stand as the protocol writes them.
pub fn read_strict(input: &[u8], depth: Depth) -> u64 {
    read::<&[u8], true>(input, depth)
}

/// Reads replies as events, if all of the input is replies whose numbers stand as the protocol writes them.
pub fn read_whole_events(input: &[u8], depth: Depth) -> Option<u64> {
    let mut rest = input;
    let mut sum = 0;
    while !rest.is_empty() {
        let (after, one) = reply::<&[u8], true>(rest).ok()?;
        sum = join_events(sum, &one, depth);
        rest = after;
    }
    Some(join(sum, 0))
}
